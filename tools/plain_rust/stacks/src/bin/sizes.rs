//! A variable of each type whose size `docs/A-METER-IN-YOUR-DEVICE.md` has, nodes without their keepers.
#![cfg_attr(target_os = "none", no_std, no_main)]

#[cfg(not(target_os = "none"))]
fn main() {}

#[cfg(target_os = "none")]
#[path = "../../../firmware/src/bare.rs"]
mod bare;

#[cfg(target_os = "none")]
#[allow(non_upper_case_globals)]
mod sizes {
    use coordinator::Coordinator;
    use core::hint::black_box;
    use core::mem::MaybeUninit;
    use meter_node::Meter;
    use plc_base::{DatagramBuf, FrameBuf, Out};
    use plc_station::Station;
    use stacks::{Flash, Nothing};

    #[global_allocator]
    static HEAP: crate::bare::Heap<1> = crate::bare::Heap::new();

    macro_rules! variables {
        ($($name:ident: $type:ty),*) => {
            $(#[unsafe(no_mangle)] static mut $name: MaybeUninit<$type> = MaybeUninit::uninit();)*

            #[unsafe(no_mangle)]
            extern "C" fn program() {
                $(black_box(&raw const $name);)*
            }
        };
    }

    variables! {
        SIZE_Station: Station<Nothing>, SIZE_Meter: Meter<Nothing>, SIZE_Coordinator: Coordinator<Nothing>, SIZE_Out: Out, SIZE_FrameBuf: FrameBuf,
        SIZE_DatagramBuf: DatagramBuf, SIZE_FlashKeeper: Flash
    }
}
