"""OSCORE (RFC 8613) for CoJP: aiocoap's rules, the library's cipher.

Identifiers: draft-ietf-6tisch-minimal-security-06, section 8.1; RFC 9031, section 7.3. Contexts are kept in memory, since each run has
new ones; a product stores sequence numbers and replay windows."""
from aiocoap import oscore

import library

JRC_ID = b"JRC"
PLEDGE_ID = {"draft": b"\0", "published": b""}
WINDOW = 32


class LibraryCcm(oscore.AES_CCM_16_64_128):
    """AES-CCM-16-64-128 by the library. Each sealing and successful opening is recorded as (key, nonce, associated data, text, sealed)."""

    record = []

    @classmethod
    def encrypt(cls, text, associated, key, nonce):
        sealed = library.seal(key, nonce, associated, text)
        cls.record.append((key, nonce, associated, text, sealed))
        return sealed

    @classmethod
    def decrypt(cls, sealed, associated, key, nonce):
        try:
            text = library.unseal(key, nonce, associated, sealed)
        except library.Refused as refusal:
            raise oscore.ProtectionInvalid("refused %s" % refusal)
        cls.record.append((key, nonce, associated, text, sealed))
        return text


class Context(oscore.CanProtect, oscore.CanUnprotect, oscore.SecurityContextUtils):
    """The context of one board at one end, "pledge" or "JRC", derived from their shared secret."""

    alg_aead = LibraryCcm()
    hashfun = oscore.hashfunctions["sha256"]
    echo_recovery = None  # a replayed request is dropped; no Echo option is asked for

    def __init__(self, end, board, secret, version):
        self.version, self.id_context = version, board
        ends = (PLEDGE_ID[version], JRC_ID)
        self.sender_id, self.recipient_id = ends if end == "pledge" else ends[::-1]
        self.derive_keys(b"", secret)
        self.sender_sequence_number = 0
        self.recipient_replay_window = oscore.ReplayWindow(WINDOW, lambda: None)
        self.recipient_replay_window.initialize_empty()

    def post_seqnoincrease(self):
        """Nothing to store."""


def agrees_with_cryptography():
    """Whether python3-cryptography's AES-CCM makes the same of all that the library's cipher sealed and opened."""
    other = oscore.AES_CCM_16_64_128
    return all(
        other.encrypt(text, associated, key, nonce) == sealed and other.decrypt(sealed, associated, key, nonce) == text
        for key, nonce, associated, text, sealed in LibraryCcm.record
    )
