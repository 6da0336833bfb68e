//! Vectors from the standards themselves.

use std::dialect::*;

use aes_modes::laws::{ccm_seal_and_open, eax_seal_and_open};
use aes_modes::{Aes, BadTag, SlicedAes, ccm_open, ccm_seal, cmac, eax_open, eax_seal};
use hex::FromHex;
use plc_base::Key;
use std::process::Abort;
use std::test::Fail;

/// A sealed text as its standard prints it, in hexadecimal.
struct Sealed {
    key: &'static str,
    nonce: &'static str,
    header: &'static str,
    text: &'static str,
    sealed: &'static str,
    tag: &'static str,
}

fn key_of(digits: &str) -> Result<Key, Fail> {
    Ok(Key(<[u8; 16]>::from_hex(digits)?))
}

fn cipher(key: &str) -> Result<Aes, Fail> {
    Ok(Aes::new(&key_of(key)?))
}

/// FIPS 197, appendices B and C.1, by both forms of the cipher.
#[test]
fn blocks_of_fips_197() {
    std::test::check(|rt: HostRuntime| -> Result<(), Fail> {
    for (key, block, encrypted) in [
        (
            "2b7e151628aed2a6abf7158809cf4f3c",
            "3243f6a8885a308d313198a2e0370734",
            "3925841d02dc09fbdc118597196a0b32",
        ),
        (
            "000102030405060708090a0b0c0d0e0f",
            "00112233445566778899aabbccddeeff",
            "69c4e0d86a7b0430d8cdb78070b4c55a",
        ),
    ] {
        let clear = <[u8; 16]>::from_hex(block)?;
        let wanted = <[u8; 16]>::from_hex(encrypted)?;
        let answer = cipher(key)?.encrypt_block(&clear);
        assert_eq!(rt; answer, wanted, "at {block}");
        let sliced = SlicedAes::new(&key_of(key)?).encrypt_block(&clear);
        assert_eq!(rt; sliced, wanted, "sliced, at {block}");
    }
    Ok(())
})
}

/// NIST SP 800-38A, F.1.1: four blocks under one key, two at once, by both forms of the cipher.
#[test]
fn pairs_of_sp_800_38a() {
    std::test::check(|rt: HostRuntime| -> Result<(), Fail> {
    let key = key_of("2b7e151628aed2a6abf7158809cf4f3c")?;
    let aes = Aes::new(&key);
    let sliced = SlicedAes::new(&key);
    for (x, y, first, second) in [
        (
            "6bc1bee22e409f96e93d7e117393172a",
            "ae2d8a571e03ac9c9eb76fac45af8e51",
            "3ad77bb40d7a3660a89ecaf32466ef97",
            "f5d3d58503b9699de785895a96fdbaaf",
        ),
        (
            "30c81c46a35ce411e5fbc1191a0a52ef",
            "f69f2445df4f9b17ad2b417be66c3710",
            "43b1cd7f598ece23881b00e3ed030688",
            "7b0c785e27e8ad3f8223207104725dd4",
        ),
    ] {
        let one = <[u8; 16]>::from_hex(x)?;
        let two = <[u8; 16]>::from_hex(y)?;
        let wanted = [<[u8; 16]>::from_hex(first)?, <[u8; 16]>::from_hex(second)?];
        let (a, b) = aes.encrypt_two(&one, &two);
        assert_eq!(rt; [a, b], wanted, "at {x}");
        let (c, d) = sliced.encrypt_two(&one, &two);
        assert_eq!(rt; [c, d], wanted, "sliced, at {x}");
    }
    Ok(())
})
}

/// RFC 4493, section 4, examples 1 to 4.
#[test]
fn tags_of_rfc_4493() {
    std::test::check(|rt: HostRuntime| -> Result<(), Fail> {
    let aes = cipher("2b7e151628aed2a6abf7158809cf4f3c")?;
    let text = <[u8; 64]>::from_hex(
        "6bc1bee22e409f96e93d7e117393172aae2d8a571e03ac9c9eb76fac45af8e51\
30c81c46a35ce411e5fbc1191a0a52eff69f2445df4f9b17ad2b417be66c3710",
    )?;
    for (length, tag) in [
        (0usize, "bb1d6929e95937287fa37d129b756746"),
        (16, "070a16b46b4d4144f79bdd9dd04a287c"),
        (40, "dfa66747de9ae63030ca32611497c827"),
        (64, "51f0bebf7e3b9d92fc49741779363cfe"),
    ] {
        assert_eq!(rt;
            cmac(&aes, &text[..length]),
            <[u8; 16]>::from_hex(tag)?,
            "at {length}"
        );
    }
    Ok(())
})
}

/// The ten vectors of the EAX paper, each with every bit of its tag turned.
#[test]
fn texts_of_the_eax_paper() {
    std::test::check(|rt: HostRuntime| -> Result<(), Fail> {
    let vectors = [
        Sealed {
            key: "233952dee4d5ed5f9b9c6d6ff80ff478",
            nonce: "62ec67f9c3a4a407fcb2a8c49031a8b3",
            header: "6bfb914fd07eae6b",
            text: "",
            sealed: "",
            tag: "e037830e8389f27b025a2d6527e79d01",
        },
        Sealed {
            key: "91945d3f4dcbee0bf45ef52255f095a4",
            nonce: "becaf043b0a23d843194ba972c66debd",
            header: "fa3bfd4806eb53fa",
            text: "f7fb",
            sealed: "19dd",
            tag: "5c4c9331049d0bdab0277408f67967e5",
        },
        Sealed {
            key: "01f74ad64077f2e704c0f60ada3dd523",
            nonce: "70c3db4f0d26368400a10ed05d2bff5e",
            header: "234a3463c1264ac6",
            text: "1a47cb4933",
            sealed: "d851d5bae0",
            tag: "3a59f238a23e39199dc9266626c40f80",
        },
        Sealed {
            key: "d07cf6cbb7f313bdde66b727afd3c5e8",
            nonce: "8408dfff3c1a2b1292dc199e46b7d617",
            header: "33cce2eabff5a79d",
            text: "481c9e39b1",
            sealed: "632a9d131a",
            tag: "d4c168a4225d8e1ff755939974a7bede",
        },
        Sealed {
            key: "35b6d0580005bbc12b0587124557d2c2",
            nonce: "fdb6b06676eedc5c61d74276e1f8e816",
            header: "aeb96eaebe2970e9",
            text: "40d0c07da5e4",
            sealed: "071dfe16c675",
            tag: "cb0677e536f73afe6a14b74ee49844dd",
        },
        Sealed {
            key: "bd8e6e11475e60b268784c38c62feb22",
            nonce: "6eac5c93072d8e8513f750935e46da1b",
            header: "d4482d1ca78dce0f",
            text: "4de3b35c3fc039245bd1fb7d",
            sealed: "835bb4f15d743e350e728414",
            tag: "abb8644fd6ccb86947c5e10590210a4f",
        },
        Sealed {
            key: "7c77d6e813bed5ac98baa417477a2e7d",
            nonce: "1a8c98dcd73d38393b2bf1569deefc19",
            header: "65d2017990d62528",
            text: "8b0a79306c9ce7ed99dae4f87f8dd61636",
            sealed: "02083e3979da014812f59f11d52630da30",
            tag: "137327d10649b0aa6e1c181db617d7f2",
        },
        Sealed {
            key: "5fff20cafab119ca2fc73549e20f5b0d",
            nonce: "dde59b97d722156d4d9aff2bc7559826",
            header: "54b9f04e6a09189a",
            text: "1bda122bce8a8dbaf1877d962b8592dd2d56",
            sealed: "2ec47b2c4954a489afc7ba4897edcdae8cc3",
            tag: "3b60450599bd02c96382902aef7f832a",
        },
        Sealed {
            key: "a4a4782bcffd3ec5e7ef6d8c34a56123",
            nonce: "b781fcf2f75fa5a8de97a9ca48e522ec",
            header: "899a175897561d7e",
            text: "6cf36720872b8513f6eab1a8a44438d5ef11",
            sealed: "0de18fd0fdd91e7af19f1d8ee8733938b1e8",
            tag: "e7f6d2231618102fdb7fe55ff1991700",
        },
        Sealed {
            key: "8395fcf1e95bebd697bd010bc766aac3",
            nonce: "22e7add93cfc6393c57ec0b3c17d6b44",
            header: "126735fcc320d25a",
            text: "ca40d7446e545ffaed3bd12a740a659ffbbb3ceab7",
            sealed: "cb8920f87a6c75cff39627b56e3ed197c552d295a7",
            tag: "cfc46afc253b4652b1af3795b124ab6e",
        },
    ];
    for vector in &vectors {
        eax_vector(&rt, vector)?;
    }
    Ok(())
})
}

fn eax_vector(rt: &(impl Abort + AllocGlobal), vector: &Sealed) -> Result<(), Fail> {
    let aes = cipher(vector.key)?;
    let nonce = <[u8; 16]>::from_hex(vector.nonce)?;
    let header = hex::decode(rt.alloc(), vector.header)?;
    let plain = hex::decode(rt.alloc(), vector.text)?;
    let sealed = hex::decode(rt.alloc(), vector.sealed)?;
    let mut text = hex::decode(rt.alloc(), vector.text)?;
    let tag = eax_seal(&aes, &nonce, &header, &mut text);
    assert_eq!(rt; text, sealed, "text of {}", vector.tag);
    assert_eq!(rt; tag, <[u8; 16]>::from_hex(vector.tag)?);
    for place in 0..16usize {
        for bit in 0..8u32 {
            let mut wrong = tag;
            wrong[place] ^= 1 << bit;
            assert_eq!(rt;
                eax_open(&aes, &nonce, &header, &mut text, &wrong),
                Err(BadTag)
            );
            assert_eq!(rt; text, sealed);
        }
    }
    assert_eq!(rt; eax_open(&aes, &nonce, &header, &mut text, &tag), Ok(()));
    assert_eq!(rt; text, plain);
    let mut again = [0; 16];
    assert_eq!(rt;
        eax_seal_and_open(&aes, &nonce, &header, &mut text, &mut again),
        Ok(())
    );
    assert_eq!(rt; again, tag);
    assert_eq!(rt; text, plain);
    Ok(())
}

/// RFC 3610, section 8: the packet vectors with tags of 8 octets, each with every bit of its tag turned.
#[test]
fn packets_of_rfc_3610() {
    std::test::check(|rt: HostRuntime| -> Result<(), Fail> {
    let vectors = [
        // packet vector 1
        Sealed {
            key: "c0c1c2c3c4c5c6c7c8c9cacbcccdcecf",
            nonce: "00000003020100a0a1a2a3a4a5",
            header: "0001020304050607",
            text: "08090a0b0c0d0e0f101112131415161718191a1b1c1d1e",
            sealed: "588c979a61c663d2f066d0c2c0f989806d5f6b61dac384",
            tag: "17e8d12cfdf926e0",
        },
        // packet vector 2
        Sealed {
            key: "c0c1c2c3c4c5c6c7c8c9cacbcccdcecf",
            nonce: "00000004030201a0a1a2a3a4a5",
            header: "0001020304050607",
            text: "08090a0b0c0d0e0f101112131415161718191a1b1c1d1e1f",
            sealed: "72c91a36e135f8cf291ca894085c87e3cc15c439c9e43a3b",
            tag: "a091d56e10400916",
        },
        // packet vector 3
        Sealed {
            key: "c0c1c2c3c4c5c6c7c8c9cacbcccdcecf",
            nonce: "00000005040302a0a1a2a3a4a5",
            header: "0001020304050607",
            text: "08090a0b0c0d0e0f101112131415161718191a1b1c1d1e1f20",
            sealed: "51b1e5f44a197d1da46b0f8e2d282ae871e838bb64da859657",
            tag: "4adaa76fbd9fb0c5",
        },
        // packet vector 4
        Sealed {
            key: "c0c1c2c3c4c5c6c7c8c9cacbcccdcecf",
            nonce: "00000006050403a0a1a2a3a4a5",
            header: "000102030405060708090a0b",
            text: "0c0d0e0f101112131415161718191a1b1c1d1e",
            sealed: "a28c6865939a9a79faaa5c4c2a9d4a91cdac8c",
            tag: "96c861b9c9e61ef1",
        },
        // packet vector 5
        Sealed {
            key: "c0c1c2c3c4c5c6c7c8c9cacbcccdcecf",
            nonce: "00000007060504a0a1a2a3a4a5",
            header: "000102030405060708090a0b",
            text: "0c0d0e0f101112131415161718191a1b1c1d1e1f",
            sealed: "dcf1fb7b5d9e23fb9d4e131253658ad86ebdca3e",
            tag: "51e83f077d9c2d93",
        },
        // packet vector 6
        Sealed {
            key: "c0c1c2c3c4c5c6c7c8c9cacbcccdcecf",
            nonce: "00000008070605a0a1a2a3a4a5",
            header: "000102030405060708090a0b",
            text: "0c0d0e0f101112131415161718191a1b1c1d1e1f20",
            sealed: "6fc1b011f006568b5171a42d953d469b2570a4bd87",
            tag: "405a0443ac91cb94",
        },
        // packet vector 13
        Sealed {
            key: "d7828d13b2b0bdc325a76236df93cc6b",
            nonce: "00412b4ea9cdbe3c9696766cfa",
            header: "0be1a88bace018b1",
            text: "08e8cf97d820ea258460e96ad9cf5289054d895ceac47c",
            sealed: "4cb97f86a2a4689a877947ab8091ef5386a6ffbdd080f8",
            tag: "e78cf7cb0cddd7b3",
        },
        // packet vector 14
        Sealed {
            key: "d7828d13b2b0bdc325a76236df93cc6b",
            nonce: "0033568ef7b2633c9696766cfa",
            header: "63018f76dc8a1bcb",
            text: "9020ea6f91bdd85afa0039ba4baff9bfb79c7028949cd0ec",
            sealed: "4ccb1e7ca981befaa0726c55d378061298c85c92814abc33",
            tag: "c52ee81d7d77c08a",
        },
        // packet vector 15
        Sealed {
            key: "d7828d13b2b0bdc325a76236df93cc6b",
            nonce: "00103fe41336713c9696766cfa",
            header: "aa6cfa36cae86b40",
            text: "b916e0eacc1c00d7dcec68ec0b3bbb1a02de8a2d1aa346132e",
            sealed: "b1d23a2220ddc0ac900d9aa03c61fcf4a559a4417767089708",
            tag: "a776796edb723506",
        },
        // packet vector 16
        Sealed {
            key: "d7828d13b2b0bdc325a76236df93cc6b",
            nonce: "00764c63b8058e3c9696766cfa",
            header: "d0d0735c531e1becf049c244",
            text: "12daac5630efa5396f770ce1a66b21f7b2101c",
            sealed: "14d253c3967b70609b7cbb7c49916028324526",
            tag: "9a6f49975bcadeaf",
        },
        // packet vector 17
        Sealed {
            key: "d7828d13b2b0bdc325a76236df93cc6b",
            nonce: "00f8b678094e3b3c9696766cfa",
            header: "77b60f011c03e1525899bcae",
            text: "e88b6a46c78d63e52eb8c546efb5de6f75e9cc0d",
            sealed: "5545ff1a085ee2efbf52b2e04bee1e2336c73e3f",
            tag: "762c0c7744fe7e3c",
        },
        // packet vector 18
        Sealed {
            key: "d7828d13b2b0bdc325a76236df93cc6b",
            nonce: "00d560912d3f703c9696766cfa",
            header: "cd9044d2b71fdb8120ea60c0",
            text: "6435acbafb11a82e2f071d7ca4a5ebd93a803ba87f",
            sealed: "009769ecabdf48625594c59251e6035722675e04c8",
            tag: "47099e5ae0704551",
        },
    ];
    for vector in &vectors {
        ccm_vector(&rt, vector)?;
    }
    Ok(())
})
}

fn ccm_vector(rt: &(impl Abort + AllocGlobal), vector: &Sealed) -> Result<(), Fail> {
    let aes = cipher(vector.key)?;
    let nonce = <[u8; 13]>::from_hex(vector.nonce)?;
    let header = hex::decode(rt.alloc(), vector.header)?;
    let plain = hex::decode(rt.alloc(), vector.text)?;
    let sealed = hex::decode(rt.alloc(), vector.sealed)?;
    let mut text = hex::decode(rt.alloc(), vector.text)?;
    let mut tag = [0; 8];
    ccm_seal(&aes, &nonce, &header, &mut text, &mut tag);
    assert_eq!(rt; text, sealed, "text of {}", vector.tag);
    assert_eq!(rt; tag, <[u8; 8]>::from_hex(vector.tag)?);
    for place in 0..8usize {
        for bit in 0..8u32 {
            let mut wrong = tag;
            wrong[place] ^= 1 << bit;
            assert_eq!(rt;
                ccm_open(&aes, &nonce, &header, &mut text, &wrong),
                Err(BadTag)
            );
            assert_eq!(rt; text, sealed);
        }
    }
    assert_eq!(rt; ccm_open(&aes, &nonce, &header, &mut text, &tag), Ok(()));
    assert_eq!(rt; text, plain);
    let mut again = [0; 8];
    assert_eq!(rt;
        ccm_seal_and_open(&aes, &nonce, &header, &mut text, &mut again),
        Ok(())
    );
    assert_eq!(rt; again, tag);
    assert_eq!(rt; text, plain);
    Ok(())
}
