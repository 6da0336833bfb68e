"""AES-128 (FIPS 197), the sealing of frames by CCM* with tags of 4 octets, and the packets of EAP-PSK that say something (RFC 4764), apart from the
program, for one who has the keys."""


def doubled(octet):
    return octet << 1 ^ (0x11B if octet & 0x80 else 0)


def times(a, b):
    """Returns the product in GF(2^8)."""
    product = 0
    while b:
        product ^= a if b & 1 else 0
        a, b = doubled(a), b >> 1
    return product


def substituted(octet):
    inverse = next((it for it in range(256) if times(octet, it) == 1), 0)
    turned = [(inverse << by | inverse >> (8 - by)) & 0xFF for by in range(5)]
    return turned[0] ^ turned[1] ^ turned[2] ^ turned[3] ^ turned[4] ^ 0x63


SBOX = [substituted(it) for it in range(256)]
TWICE = [doubled(it) for it in range(256)]


class Aes:
    def __init__(self, key):
        words, constant = [list(key[at : at + 4]) for at in range(0, 16, 4)], 1
        for number in range(4, 44):
            word = words[-1]
            if number % 4 == 0:
                word = [SBOX[it] for it in word[1:] + word[:1]]
                word[0] ^= constant
                constant = TWICE[constant]
            words.append([a ^ b for a, b in zip(words[number - 4], word)])
        self.rounds = [sum(words[at : at + 4], []) for at in range(0, 44, 4)]

    def encrypted(self, block):
        state = [a ^ b for a, b in zip(block, self.rounds[0])]
        for number in range(1, 11):
            state = [SBOX[state[(at + 4 * (at % 4)) % 16]] for at in range(16)]
            if number < 10:
                state = [it for column in range(0, 16, 4) for it in mixed(state[column : column + 4])]
            state = [a ^ b for a, b in zip(state, self.rounds[number])]
        return bytes(state)


def mixed(column):
    whole = column[0] ^ column[1] ^ column[2] ^ column[3]
    return [it ^ whole ^ TWICE[it ^ column[(at + 1) % 4]] for at, it in enumerate(column)]


def padded(octets):
    return octets + bytes(-len(octets) % 16)


def masked(aes, nonce, text):
    """Returns a text under the key stream from block 1 on."""
    stream = b"".join(aes.encrypted(b"\1" + nonce + number.to_bytes(2, "big")) for number in range(1, 2 + len(text) // 16))
    return bytes(a ^ b for a, b in zip(text, stream))


def nonce_of(header):
    """Returns the nonce of a sealed frame's 15 octets of header: network, 00 FF FE 00, sender, counter, level."""
    return header[4:2:-1] + bytes.fromhex("00fffe00") + header[8:6:-1] + header[13:9:-1] + b"\5"


def sealed(aes, header, payload):
    """Returns the frame of a header and a payload."""
    nonce = nonce_of(header)
    blocks = b"\x49" + nonce + len(payload).to_bytes(2, "big") + padded(len(header).to_bytes(2, "big") + header) + padded(payload)
    mac = bytes(16)
    for at in range(0, len(blocks), 16):
        mac = aes.encrypted(bytes(a ^ b for a, b in zip(mac, blocks[at : at + 16])))
    tag = bytes(a ^ b for a, b in zip(mac[:4], aes.encrypted(b"\1" + nonce + bytes(2))))
    return header + masked(aes, nonce, payload) + tag


def header_of(target, sender, counter, index):
    """Returns the header of a sealed frame in the network 781D; a frame to all asks for no acknowledgement."""
    control = b"\x49\x98" if target == 0xFFFF else b"\x69\x98"
    ways = b"\x1d\x78" + target.to_bytes(2, "little") + sender.to_bytes(2, "little")
    return control + bytes([counter % 256]) + ways + b"\x0d" + counter.to_bytes(4, "little") + bytes([index])


def payload_of(aes, frame):
    """Returns the payload of a sealed frame, whose tag is taken for right."""
    return masked(aes, nonce_of(frame[:15]), frame[15:-4])


def xored(*parts):
    return bytes(a ^ b for a, b in zip(*parts)) if len(parts) == 2 else xored(xored(*parts[:2]), *parts[2:])


def cmac(aes, text):
    """Returns the CMAC of a text (RFC 4493)."""
    subkeys, value = [], int.from_bytes(aes.encrypted(bytes(16)), "big")
    for _ in range(2):
        value = (value << 1) % 2**128 ^ (0x87 if value >> 127 else 0)
        subkeys.append(value.to_bytes(16, "big"))
    at = max(0, (len(text) - 1) // 16 * 16)
    last = text[at:]
    last = xored(last, subkeys[0]) if len(last) == 16 else xored((last + b"\x80").ljust(16, b"\0"), subkeys[1])
    chain = bytes(16)
    for block in [*(text[it : it + 16] for it in range(0, at, 16)), last]:
        chain = aes.encrypted(xored(chain, block))
    return chain


def eax_sealed(aes, nonce, header, text):
    """Returns the sealed text and its tag (the EAX paper)."""
    start, head = (cmac(aes, bytes(15) + bytes([kind]) + it) for kind, it in ((0, nonce), (1, header)))
    first = int.from_bytes(start, "big")
    stream = b"".join(aes.encrypted(((first + it) % 2**128).to_bytes(16, "big")) for it in range(1 + len(text) // 16))
    masked_text = xored(text, stream)
    return masked_text, xored(start, head, cmac(aes, bytes(15) + b"\2" + masked_text))


def derived(key, block, number):
    """Returns a key made of a key: a block encrypted, a number added, and encrypted again (RFC 4764, 3.1 and 3.2)."""
    aes = Aes(key)
    return aes.encrypted(xored(aes.encrypted(block), bytes(15) + bytes([number])))


def channel(psk, rand_p, number, head, text):
    """Returns the protected channel of a packet: its nonce, its tag and the sealed text, for a pair key and the meter's random value."""
    tek = Aes(derived(derived(psk, bytes(16), 2), rand_p, 1))
    sealed_text, tag = eax_sealed(tek, bytes(15) + bytes([number]), head, text)
    return bytes(3) + bytes([number]) + tag + sealed_text
