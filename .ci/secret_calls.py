"""What `.ci/secrets` runs: the crate that offers the ciphers to C, and the C program that calls it with its secrets marked.

They stand here as text, since the gate takes code of a crate only from the crates that it proves.
"""

# Of each call the secrets are: the key, and the text of a seal; of EAP-PSK the pair key, and the group key that a grant carries.
CRATE = """//! The ciphers and the ends of EAP-PSK for C, to run them with their secrets marked.
#![tactic(auto)]
ghost use Rattle.std.specs.Prelude.{◌≡◌, ◌<◌, ◌⊎◌, length};

mod joining;

use aes_modes::{Aes, SlicedAes, ccm_open, ccm_seal, cmac, eax_open, eax_seal};
use plc_base::Key;

#[unsafe(no_mangle)]
pub extern "C" fn call_blocks(key: &[u8], block: &mut [u8], count: usize)
    requires key { length key.now ≡ 16 }
    requires block { length block.old ≡ 16 }
{
    let mut k = [0; 16];
    k.copy_from_slice(key);
    let mut b = [0; 16];
    b.copy_from_slice(block);
    let aes = Aes::new(&Key(k));
    for _ in 0..count {
        b = aes.encrypt_block(&b);
    }
    block.copy_from_slice(&b);
}

// Each block beside that of the key, which is as secret.
#[unsafe(no_mangle)]
pub extern "C" fn call_sliced_blocks(key: &[u8], block: &mut [u8], count: usize)
    requires key { length key.now ≡ 16 }
    requires block { length block.old ≡ 16 }
{
    let mut k = [0; 16];
    k.copy_from_slice(key);
    let mut b = [0; 16];
    b.copy_from_slice(block);
    let aes = SlicedAes::new(&Key(k));
    for _ in 0..count {
        let (next, _) = aes.encrypt_two(&b, &k);
        b = next;
    }
    block.copy_from_slice(&b);
}

#[unsafe(no_mangle)]
pub extern "C" fn call_ccm_seal(key: &[u8], nonce: &[u8], header: &[u8], text: &mut [u8], tag: &mut [u8])
    requires key { length key.now ≡ 16 }
    requires nonce { length nonce.now ≡ 13 }
    requires header { length header.now < 65280 }
    requires text { length text.old < 65536 }
    requires tag { (length tag.old ≡ 4) ⊎ (length tag.old ≡ 8) }
{
    let mut k = [0; 16];
    k.copy_from_slice(key);
    let mut n = [0; 13];
    n.copy_from_slice(nonce);
    ccm_seal(&Aes::new(&Key(k)), &n, header, text, tag);
}

#[unsafe(no_mangle)]
pub extern "C" fn call_ccm_open(key: &[u8], nonce: &[u8], header: &[u8], text: &mut [u8], tag: &[u8]) -> bool
    requires key { length key.now ≡ 16 }
    requires nonce { length nonce.now ≡ 13 }
    requires header { length header.now < 65280 }
    requires text { length text.old < 65536 }
    requires tag { (length tag.now ≡ 4) ⊎ (length tag.now ≡ 8) }
{
    let mut k = [0; 16];
    k.copy_from_slice(key);
    let mut n = [0; 13];
    n.copy_from_slice(nonce);
    ccm_open(&Aes::new(&Key(k)), &n, header, text, tag).is_ok()
}

#[unsafe(no_mangle)]
pub extern "C" fn call_cmac(key: &[u8], text: &[u8], tag: &mut [u8])
    requires key { length key.now ≡ 16 }
    requires tag { length tag.old ≡ 16 }
{
    let mut k = [0; 16];
    k.copy_from_slice(key);
    let out = cmac(&Aes::new(&Key(k)), text);
    tag.copy_from_slice(&out);
}

#[unsafe(no_mangle)]
pub extern "C" fn call_eax_seal(key: &[u8], nonce: &[u8], header: &[u8], text: &mut [u8], tag: &mut [u8])
    requires key { length key.now ≡ 16 }
    requires nonce { length nonce.now ≡ 16 }
    requires tag { length tag.old ≡ 16 }
{
    let mut k = [0; 16];
    k.copy_from_slice(key);
    let mut n = [0; 16];
    n.copy_from_slice(nonce);
    let out = eax_seal(&Aes::new(&Key(k)), &n, header, text);
    tag.copy_from_slice(&out);
}

#[unsafe(no_mangle)]
pub extern "C" fn call_eax_open(key: &[u8], nonce: &[u8], header: &[u8], text: &mut [u8], tag: &[u8]) -> bool
    requires key { length key.now ≡ 16 }
    requires nonce { length nonce.now ≡ 16 }
    requires tag { length tag.now ≡ 16 }
{
    let mut k = [0; 16];
    k.copy_from_slice(key);
    let mut n = [0; 16];
    n.copy_from_slice(nonce);
    let mut g = [0; 16];
    g.copy_from_slice(tag);
    eax_open(&Aes::new(&Key(k)), &n, header, text, &g).is_ok()
}
"""

JOINING = """//! The calls of EAP-PSK. Each makes its end anew from the names and the random values of a session, so that between two calls
//! the packet alone is passed on. What is answered is the length of the packet that was written, or 0 for a fault.
use eap_psk::{Peer, PskKeys, Server};
use plc_base::{EapBuf, Ended, Eui, Grant, Key, KeyIndex, RandomOctets, Short, TagList, octets_at};

#[derive(Clone, Copy)]
struct Ends {
    eui: Eui,
    id_s: Eui,
    rand_s: RandomOctets,
    rand_p: RandomOctets,
}

// Two names and two random values.
fn ends_of(octets: &[u8]) -> Result<Ends, Ended> {
    Ok(Ends {
        eui: Eui(octets_at(octets, 0)?),
        id_s: Eui(octets_at(octets, 8)?),
        rand_s: RandomOctets(octets_at(octets, 16)?),
        rand_p: RandomOctets(octets_at(octets, 32)?),
    })
}

// Copies a packet out, where there is room.
fn put(packet: &EapBuf, out: &mut [u8]) -> usize {
    let count = packet.len();
    if count > out.len() {
        return 0;
    }
    out[..count].copy_from_slice(packet.octets());
    count
}

#[unsafe(no_mangle)]
pub extern "C" fn call_first(ends: &[u8], out: &mut [u8]) -> usize {
    let Ok(ends) = ends_of(ends) else {
        return 0;
    };
    let mut packet = EapBuf::new();
    let _server = Server::first(ends.eui, ends.id_s, ends.rand_s, &mut packet);
    put(&packet, out)
}

#[unsafe(no_mangle)]
pub extern "C" fn call_peer_first(psk: &[u8], ends: &[u8], packet: &[u8], out: &mut [u8]) -> usize {
    let Ok(ends) = ends_of(ends) else {
        return 0;
    };
    let Ok(psk) = octets_at(psk, 0) else {
        return 0;
    };
    let keys = PskKeys::of(&Key(psk));
    let mut answer = EapBuf::new();
    let mut tags = TagList::new();
    let taken = Peer::answer_first(&keys, ends.eui, ends.rand_p, packet, &mut answer, &mut tags);
    if taken.is_err() {
        return 0;
    }
    put(&answer, out)
}

#[unsafe(no_mangle)]
pub extern "C" fn call_server_second(psk: &[u8], group: &[u8], ends: &[u8], packet: &[u8], out: &mut [u8]) -> usize {
    let Ok(ends) = ends_of(ends) else {
        return 0;
    };
    let Ok(psk) = octets_at(psk, 0) else {
        return 0;
    };
    let Ok(group) = octets_at(group, 0) else {
        return 0;
    };
    let Some(address) = Short::new(1) else {
        return 0;
    };
    let grant = Grant {
        address,
        active: KeyIndex::first(),
        keys: [Some(Key(group)), None],
    };
    let keys = PskKeys::of(&Key(psk));
    let server = Server {
        eui: ends.eui,
        id_s: ends.id_s,
        rand_s: ends.rand_s,
        rand_p: None,
    };
    let mut answer = EapBuf::new();
    let mut tags = TagList::new();
    let taken = server.take_second(&keys, packet, &grant, &mut answer, &mut tags);
    if taken.is_err() {
        return 0;
    }
    put(&answer, out)
}

#[unsafe(no_mangle)]
pub extern "C" fn call_peer_third(psk: &[u8], ends: &[u8], packet: &[u8], out: &mut [u8]) -> usize {
    let Ok(ends) = ends_of(ends) else {
        return 0;
    };
    let Ok(psk) = octets_at(psk, 0) else {
        return 0;
    };
    let keys = PskKeys::of(&Key(psk));
    let peer = Peer {
        eui: ends.eui,
        id_s: ends.id_s,
        rand_s: ends.rand_s,
        rand_p: ends.rand_p,
    };
    let mut answer = EapBuf::new();
    let mut tags = TagList::new();
    let taken = peer.take_third(&keys, packet, &mut answer, &mut tags);
    if taken.is_err() {
        return 0;
    }
    put(&answer, out)
}

// Answers 1 where the message is taken.
#[unsafe(no_mangle)]
pub extern "C" fn call_server_fourth(psk: &[u8], ends: &[u8], packet: &[u8]) -> usize {
    let Ok(ends) = ends_of(ends) else {
        return 0;
    };
    let Ok(psk) = octets_at(psk, 0) else {
        return 0;
    };
    let keys = PskKeys::of(&Key(psk));
    let server = Server {
        eui: ends.eui,
        id_s: ends.id_s,
        rand_s: ends.rand_s,
        rand_p: Some(ends.rand_p),
    };
    let mut tags = TagList::new();
    if server.take_fourth(&keys, packet, &mut tags).is_err() {
        return 0;
    }
    1
}
"""

HARNESS = r"""
#include <stdbool.h>
#include <stdint.h>
#include <stdio.h>
#include <stdlib.h>
#include <string.h>
#include <valgrind/memcheck.h>

/* A slice is a pointer and a length. */
#define IN const uint8_t *, size_t
#define OUT uint8_t *, size_t
void call_blocks(IN, OUT, size_t);
void call_sliced_blocks(IN, OUT, size_t);
void call_ccm_seal(IN, IN, IN, OUT, OUT);
bool call_ccm_open(IN, IN, IN, OUT, IN);
void call_cmac(IN, IN, OUT);
void call_eax_seal(IN, IN, IN, OUT, OUT);
bool call_eax_open(IN, IN, IN, OUT, IN);
size_t call_first(IN, OUT);
size_t call_peer_first(IN, IN, IN, OUT);
size_t call_server_second(IN, IN, IN, IN, OUT);
size_t call_peer_third(IN, IN, IN, OUT);
size_t call_server_fourth(IN, IN, IN);

static uint8_t key[16], group[16], nonce[16] = {1, 2, 3}, header[20] = {4}, text[400] = {5}, sealed[400], tag[16], block[16];
static uint8_t ends[48] = {6}, packets[5][128];
static size_t lengths[5];
static bool secret;

static void hide(void *octets, size_t count)
{
    if (secret) VALGRIND_MAKE_MEM_UNDEFINED(octets, count);
}

/* What is seen of a call from outside. */
static void show(void *octets, size_t count)
{
    VALGRIND_MAKE_MEM_DEFINED(octets, count);
}

/* Packet `number` of a session, from the one before. */
static size_t step(int number)
{
    uint8_t *in = packets[number - 1], *out = packets[number];
    size_t count = lengths[number - 1];
    switch (number) {
    case 1: return call_first(ends, 48, out, 128);
    case 2: return call_peer_first(key, 16, ends, 48, in, count, out, 128);
    case 3: return call_server_second(key, 16, group, 16, ends, 48, in, count, out, 128);
    case 4: return call_peer_third(key, 16, ends, 48, in, count, out, 128);
    default: return call_server_fourth(key, 16, ends, 48, in, count);
    }
}

/* The steps up to `last`, of which the last one has secrets; `at` is the octet that is changed in what it takes, or -1. */
static size_t joining(int last, int at)
{
    for (int number = 1; number < last; number++) lengths[number] = step(number);
    if (at >= 0) packets[last - 1][at] ^= 1;
    hide(key, 16);
    hide(group, 16);
    size_t count = step(last);
    show(&count, sizeof count);
    return count;
}

static bool opens(bool eax, size_t count, bool wrong, long times)
{
    size_t tag_length = eax ? 16 : 4;
    if (eax) call_eax_seal(key, 16, nonce, 16, header, 20, text, count, tag, 16);
    else call_ccm_seal(key, 16, nonce, 13, header, 20, text, count, tag, 4);
    if (wrong) tag[tag_length - 1] ^= 1;
    hide(key, 16);
    bool opened = false;
    memcpy(sealed, text, count);
    for (long i = 0; i < times; i++) {
        memcpy(text, sealed, count);
        opened = eax ? call_eax_open(key, 16, nonce, 16, header, 20, text, count, tag, 16)
                     : call_ccm_open(key, 16, nonce, 13, header, 20, text, count, tag, 4);
        show(&opened, 1);
    }
    return opened;
}

static long ran(const char *what, size_t count, long times)
{
    if (!strcmp(what, "ccm_open")) return opens(false, count, false, times);
    if (!strcmp(what, "ccm_open_wrong")) return opens(false, count, true, times);
    if (!strcmp(what, "eax_open")) return opens(true, count, false, times);
    if (!strcmp(what, "eax_open_wrong")) return opens(true, count, true, times);
    if (!strcmp(what, "peer_first")) return joining(2, -1);
    if (!strcmp(what, "server_second")) return joining(3, -1);
    if (!strcmp(what, "server_second_wrong_code")) return joining(3, 53);
    if (!strcmp(what, "peer_third")) return joining(4, -1);
    if (!strcmp(what, "peer_third_wrong_code")) return joining(4, 37);
    if (!strcmp(what, "peer_third_wrong_tag")) return joining(4, 57);
    if (!strcmp(what, "server_fourth")) return joining(5, -1);
    if (!strcmp(what, "server_fourth_wrong_tag")) return joining(5, 41);
    const char *seals[] = {"blocks", "ccm_seal", "cmac", "eax_seal", "sliced_blocks"};
    int kind = 0;
    while (kind < 5 && strcmp(what, seals[kind])) kind++;
    hide(key, 16);
    hide(text, count);
    for (long i = 0; i < times; i++)
        switch (kind) {
        case 0: call_blocks(key, 16, block, 16, count); break;
        case 1: call_ccm_seal(key, 16, nonce, 13, header, 20, text, count, tag, 4); break;
        case 2: call_cmac(key, 16, text, count, tag, 16); break;
        case 3: call_eax_seal(key, 16, nonce, 16, header, 20, text, count, tag, 16); break;
        case 4: call_sliced_blocks(key, 16, block, 16, count); break;
        default: return -1;
        }
    return 0;
}

/* secrets (open|hidden) WHAT COUNT TIMES */
int main(int words, char **word)
{
    if (words < 5) return 2;
    secret = !strcmp(word[1], "hidden");
    for (int i = 0; i < 16; i++) {
        key[i] = i;
        block[i] = 17 * i;
    }
    printf("%ld\n", ran(word[2], strtoul(word[3], 0, 10), strtol(word[4], 0, 10)));
    show(block, 16);
    if (!secret && strstr(word[2], "blocks"))
        for (int i = 0; i < 16; i++) printf("%02x", block[i]);
    return 0;
}
"""


def plain(text):
    """Returns the same code in plain Rust, which has no contracts."""
    return "".join(line for line in text.splitlines(keepends=True) if not line.startswith(("    requires", "ghost use", "#![tactic")))


# A member of the export, by its files.
PLAIN = {
    "Cargo.toml": """[package]
name = "secret_calls"
version = "0.0.0"
edition = "2024"
publish = false

[lib]
crate-type = ["staticlib"]

[dependencies]
plc_base = { path = "../crates/plc_base" }
aes_modes = { path = "../crates/aes_modes" }
eap_psk = { path = "../crates/eap_psk" }
""",
    "src/lib.rs": plain(CRATE),
    "src/joining.rs": plain(JOINING),
}

FRAMES = r"""
#include <stdbool.h>
#include <stdio.h>
#include <stdlib.h>
#include <string.h>
#include <valgrind/memcheck.h>
#include "frames.h"

static uint8_t key[16], text[400] = {5}, frame[400];
static const struct frames_head head = {.pan = 0x781D, .counter = 7, .to = 2, .from = 1, .kind = FRAMES_SEALED, .version = 1, .ack = 1};

static size_t sealed(size_t count)
{
    size_t written = 0;
    return frames_seal(key, 16, &head, text, count, frame, sizeof frame, &written) == FRAMES_OK ? written : 0;
}

static bool opens(size_t length)
{
    size_t written = 0;
    uint32_t status = frames_open(key, 16, frame, length, text, sizeof text, &written);
    VALGRIND_MAKE_MEM_DEFINED(&status, sizeof status);
    return status == FRAMES_OK;
}

/* frames hidden WHAT COUNT TIMES */
int main(int words, char **word)
{
    if (words < 5) return 2;
    bool seals = !strcmp(word[2], "frames_seal");
    size_t count = strtoul(word[3], 0, 10), length = seals ? 0 : sealed(count);
    if (!strcmp(word[2], "frames_open_wrong")) frame[length - 1] ^= 1;
    VALGRIND_MAKE_MEM_UNDEFINED(key, sizeof key);
    if (seals) VALGRIND_MAKE_MEM_UNDEFINED(text, count);
    printf("%d\n", seals ? sealed(count) == count + 19 : opens(length));
    return 0;
}
"""
