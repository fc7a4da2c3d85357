#!/usr/bin/env python3
"""Adds to crates/cipher/stdin and stdout, after the recorded lines, published vectors of AES-128 and AES-CCM-16-64-128 with their
sources: key schedule, blocks, and texts that are sealed, opened, and refused when one bit of the sealed text is turned.

The expected output consists of the published results and of nothing that the program wrote.
"""
from splice import splice

# FIPS 197, appendix A.1: a key and its eleven round keys
KEY_SCHEDULE = [
    "2b7e151628aed2a6abf7158809cf4f3c",
    "a0fafe1788542cb123a339392a6c7605",
    "f2c295f27a96b9435935807a7359f67f",
    "3d80477d4716fe3e1e237e446d7a883b",
    "ef44a541a8525b7fb671253bdb0bad00",
    "d4d1c6f87c839d87caf2b8bc11f915bc",
    "6d88a37a110b3efddbf98641ca0093fd",
    "4e54f70e5f5fc9f384a64fb24ea6dc4f",
    "ead27321b58dbad2312bf5607f8d292f",
    "ac7766f319fadc2128d12941575c006e",
    "d014f9a8c9ee2589e13f0cc8b6630ca6",
]

# source; KEY BLOCK RESULT
BLOCKS = [
    ("FIPS 197, appendices B and C.1", [
        "2b7e151628aed2a6abf7158809cf4f3c 3243f6a8885a308d313198a2e0370734 3925841d02dc09fbdc118597196a0b32",
        "000102030405060708090a0b0c0d0e0f 00112233445566778899aabbccddeeff 69c4e0d86a7b0430d8cdb78070b4c55a",
    ]),
    ("NIST SP 800-38A, F.1.1 (ECB-AES128)", [
        "2b7e151628aed2a6abf7158809cf4f3c 6bc1bee22e409f96e93d7e117393172a 3ad77bb40d7a3660a89ecaf32466ef97",
        "2b7e151628aed2a6abf7158809cf4f3c ae2d8a571e03ac9c9eb76fac45af8e51 f5d3d58503b9699de785895a96fdbaaf",
        "2b7e151628aed2a6abf7158809cf4f3c 30c81c46a35ce411e5fbc1191a0a52ef 43b1cd7f598ece23881b00e3ed030688",
        "2b7e151628aed2a6abf7158809cf4f3c f69f2445df4f9b17ad2b417be66c3710 7b0c785e27e8ad3f8223207104725dd4",
    ]),
    ("NIST AESAVS, the first vectors of GFSbox, KeySbox, VarKey and VarTxt for 128-bit keys", [
        "00000000000000000000000000000000 f34481ec3cc627bacd5dc3fb08f273e6 0336763e966d92595a567cc9ce537f5e",
        "10a58869d74be5a374cf867cfb473859 00000000000000000000000000000000 6d251e6944b051e04eaa6fb4dbf78465",
        "80000000000000000000000000000000 00000000000000000000000000000000 0edd33d3c621e546455bd8ba1418bec8",
        "00000000000000000000000000000000 80000000000000000000000000000000 3ad78e726c1ec02b7ebfe92b23d9ec34",
    ]),
]

# source; KEY NONCE DATA TEXT SEALED, where `-` is the empty text. The tag is the last eight bytes of SEALED
SEALED = [
    ("RFC 3610, section 8: the packet vectors with a tag of eight bytes, 1 to 6 and 13 to 18", [
        "c0c1c2c3c4c5c6c7c8c9cacbcccdcecf 00000003020100a0a1a2a3a4a5 0001020304050607 "
        "08090a0b0c0d0e0f101112131415161718191a1b1c1d1e 588c979a61c663d2f066d0c2c0f989806d5f6b61dac38417e8d12cfdf926e0",
        "c0c1c2c3c4c5c6c7c8c9cacbcccdcecf 00000004030201a0a1a2a3a4a5 0001020304050607 "
        "08090a0b0c0d0e0f101112131415161718191a1b1c1d1e1f 72c91a36e135f8cf291ca894085c87e3cc15c439c9e43a3ba091d56e10400916",
        "c0c1c2c3c4c5c6c7c8c9cacbcccdcecf 00000005040302a0a1a2a3a4a5 0001020304050607 "
        "08090a0b0c0d0e0f101112131415161718191a1b1c1d1e1f20 51b1e5f44a197d1da46b0f8e2d282ae871e838bb64da8596574adaa76fbd9fb0c5",
        "c0c1c2c3c4c5c6c7c8c9cacbcccdcecf 00000006050403a0a1a2a3a4a5 000102030405060708090a0b "
        "0c0d0e0f101112131415161718191a1b1c1d1e a28c6865939a9a79faaa5c4c2a9d4a91cdac8c96c861b9c9e61ef1",
        "c0c1c2c3c4c5c6c7c8c9cacbcccdcecf 00000007060504a0a1a2a3a4a5 000102030405060708090a0b "
        "0c0d0e0f101112131415161718191a1b1c1d1e1f dcf1fb7b5d9e23fb9d4e131253658ad86ebdca3e51e83f077d9c2d93",
        "c0c1c2c3c4c5c6c7c8c9cacbcccdcecf 00000008070605a0a1a2a3a4a5 000102030405060708090a0b "
        "0c0d0e0f101112131415161718191a1b1c1d1e1f20 6fc1b011f006568b5171a42d953d469b2570a4bd87405a0443ac91cb94",
        "d7828d13b2b0bdc325a76236df93cc6b 00412b4ea9cdbe3c9696766cfa 0be1a88bace018b1 "
        "08e8cf97d820ea258460e96ad9cf5289054d895ceac47c 4cb97f86a2a4689a877947ab8091ef5386a6ffbdd080f8e78cf7cb0cddd7b3",
        "d7828d13b2b0bdc325a76236df93cc6b 0033568ef7b2633c9696766cfa 63018f76dc8a1bcb "
        "9020ea6f91bdd85afa0039ba4baff9bfb79c7028949cd0ec 4ccb1e7ca981befaa0726c55d378061298c85c92814abc33c52ee81d7d77c08a",
        "d7828d13b2b0bdc325a76236df93cc6b 00103fe41336713c9696766cfa aa6cfa36cae86b40 "
        "b916e0eacc1c00d7dcec68ec0b3bbb1a02de8a2d1aa346132e b1d23a2220ddc0ac900d9aa03c61fcf4a559a4417767089708a776796edb723506",
        "d7828d13b2b0bdc325a76236df93cc6b 00764c63b8058e3c9696766cfa d0d0735c531e1becf049c244 "
        "12daac5630efa5396f770ce1a66b21f7b2101c 14d253c3967b70609b7cbb7c499160283245269a6f49975bcadeaf",
        "d7828d13b2b0bdc325a76236df93cc6b 00f8b678094e3b3c9696766cfa 77b60f011c03e1525899bcae "
        "e88b6a46c78d63e52eb8c546efb5de6f75e9cc0d 5545ff1a085ee2efbf52b2e04bee1e2336c73e3f762c0c7744fe7e3c",
        "d7828d13b2b0bdc325a76236df93cc6b 00d560912d3f703c9696766cfa cd9044d2b71fdb8120ea60c0 "
        "6435acbafb11a82e2f071d7ca4a5ebd93a803ba87f 009769ecabdf48625594c59251e6035722675e04c847099e5ae0704551",
    ]),
    ("COSE (RFC 8152), AES-CCM-16-64-128", [
        "849b57219dae48de646d07dbb533566e 89f52f65a1c580933b5261a72f 8367456e637279707443a1010a40 "
        "546869732069732074686520636f6e74656e742e 6899da0a132bd2d2b9b10915743ee1f7b92a46802388816c040275ee",
    ]),
    ("OSCORE (RFC 8613), C.4 and C.5", [
        "f0910ed7295e6ad4b54fc793154302ff 4622d4dd6d944168eefb549868 8368456e63727970743040488501810a40411440 "
        "01b3747631 612f1092f1776f1c1668b3825e",
        "321b26943253c7ffb6003b0b64d74041 bf35ae297d2dace910c52e99ed 8368456e63727970743040498501810a4100411440 "
        "01b3747631 4ed339a5a379b0b8bc731fffb0",
    ]),
    ("OSCORE (RFC 8613), C.6, C.7 and C.8", [
        "af2a1300a5e95788b356336eeecd2b92 2ca58fb85ff1b81c0b7181b84a 8368456e63727970743040488501810a40411440 "
        "01b3747631 72cd7273fd331ac45cffbe55c3",
        "ffb14e093c94c9cac9471648b4f98710 4622d4dd6d944168eefb549868 8368456e63727970743040488501810a40411440 "
        "45ff48656c6c6f20576f726c6421 dbaad1e9a7e7b2a813d3c31524378303cdafae119106",
        "ffb14e093c94c9cac9471648b4f98710 4722d4dd6d944169eefb54987c 8368456e63727970743040488501810a40411440 "
        "45ff48656c6c6f20576f726c6421 4d4c13669384b67354b2b6175ff4b8658c666a6cf88e",
    ]),
    ("IEEE 802.15.4-2006, C.2.1 (beacon, MIC-64, no text) and C.2.3 (command, ENC-MIC-64)", [
        "c0c1c2c3c4c5c6c7c8c9cacbcccdcecf acde4800000000010000000502 08d0842143010000000048deac020500000055cf000051525354 "
        "- 223bc1ec841ab553",
        "c0c1c2c3c4c5c6c7c8c9cacbcccdcecf acde4800000000010000000506 2bdc842143020000000048deacffff010000000048deac060500000001 "
        "ce d84fde529061f9c6f1",
    ]),
]  # fmt: skip


def shown(digits):
    return "h'%s'" % digits


def damaged(sealed):
    """The sealed bytes with one bit turned, once for each byte: bit 0 of the first, bit 1 of the second, and so on."""
    for offset in range(len(sealed)):
        yield sealed[:offset] + bytes([sealed[offset] ^ 1 << offset % 8]) + sealed[offset + 1 :]


def sealed_lines(key, nonce, data, text, sealed):
    """The vector sealed into a destination of exactly its length; damaged copies, which leave the destination; the vector opened, which
    overwrites the length of the text."""
    inputs, text = " ".join((key, nonce, data)), text.replace("-", "")
    yield "room %d" % (len(sealed) // 2), "lent %d" % (len(sealed) // 2)
    yield "seal %s %s" % (inputs, text), "sealed " + shown(sealed)
    for copy in damaged(bytes.fromhex(sealed)):
        yield "open %s %s" % (inputs, copy.hex()), "refused 20 SEAL"
    yield "destination", shown(sealed)
    yield "open %s %s" % (inputs, sealed), "opened " + shown(text)
    yield "destination", shown(text + sealed[len(text) :])


def lines():
    yield "# FIPS 197, appendix A.1", None
    yield "expand " + KEY_SCHEDULE[0], " ".join(map(shown, KEY_SCHEDULE))
    for source, vectors in BLOCKS:
        yield "# " + source, None
        for key, block, result in map(str.split, vectors):
            yield "block %s %s" % (key, block), shown(result)
    for source, vectors in SEALED:
        yield "# " + source, None
        for vector in vectors:
            yield from sealed_lines(*vector.split())
    yield "room 264", "lent 264"


if __name__ == "__main__":
    splice("cipher", "cipher_vectors.py", lines())
