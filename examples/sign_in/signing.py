"""Signing and sealing with the session key that the box worked out, by impacket's code (MS-NLMP 3.4.4)."""
from Cryptodome.Cipher import ARC4
from impacket import ntlm


class Sealed:
    """One direction: side is "Client" or "Server". The flags are those of the answer."""

    def __init__(self, box, side):
        self.flags = int.from_bytes(box.sent[60:64], "little")
        self.sign_key = ntlm.SIGNKEY(self.flags, box.key, side)
        self.cipher = ARC4.new(ntlm.SEALKEY(self.flags, box.key, side)).encrypt

    def sign(self, data):
        return ntlm.SIGN(self.flags, self.sign_key, data, 0, self.cipher).getData()

    def seal(self, data):
        sealed, signature = ntlm.SEAL(self.flags, self.sign_key, None, data, data, 0, self.cipher)
        return signature.getData() + sealed

    def open(self, token):
        """-> the plain bytes, or None where the signature isn't theirs"""
        plain = self.cipher(token[16:])
        return plain if self.sign(plain) == token[:16] else None
