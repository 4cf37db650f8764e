"""A Netlogon secure channel (MS-NRPC 3.1.4, 3.3.4.2) to a domain controller, through impacket, with an NL_AUTH request that is
given in the place of impacket's own."""
import hashlib
import hmac
import os
import struct
from unittest import mock

from Cryptodome.Cipher import AES
from impacket.dcerpc.v5 import nrpc, rpcrt, transport
from impacket.dcerpc.v5.dtypes import NULL

WANTED = 0x212FFFFF  # NegotiateFlags (MS-NRPC 3.1.4.2), AES (0x01000000) among them


def cipher(key, half):
    return AES.new(key, AES.MODE_CFB, half * 2)


def seal(data, confounder, sequence, key, aes=None):
    """3.3.4.2.1 -> the sealed bytes, and NL_AUTH_SHA2_SIGNATURE (2.2.1.3.3)"""
    number = nrpc.deriveSequenceNumber(sequence)
    head = struct.pack("<HHHH", 0x13, 0x1A, 0xFFFF, 0)
    check = hmac.new(key, head + confounder + data, hashlib.sha256).digest()[:8]
    sealing = cipher(bytes(byte ^ 0xF0 for byte in key), number)
    hidden = sealing.encrypt(confounder)
    return sealing.encrypt(data), head + cipher(key, check).encrypt(number) + check + hidden + bytes(24)


def unseal(data, signature, key, aes=None):
    """3.3.4.2.2 -> the plain bytes, and the confounder"""
    number = cipher(key, signature[16:24]).decrypt(signature[8:16])
    sealing = cipher(bytes(byte ^ 0xF0 for byte in key), number)
    confounder = sealing.decrypt(signature[24:32])
    plain = sealing.decrypt(data)
    if hmac.new(key, signature[:8] + confounder + plain, hashlib.sha256).digest()[:8] != signature[16:24]:
        raise ValueError("the server's signature is wrong")
    return plain, confounder


# impacket 0.10.0's own AES doesn't run on Python 3, and no call asks for it.
nrpc.SEAL, nrpc.UNSEAL, nrpc.ComputeNetlogonCredential = seal, unseal, nrpc.ComputeNetlogonCredentialAES


class SecureChannel:
    def __init__(self, port, server, computer, domain, password):
        self.port, self.server, self.computer, self.domain = port, server, computer, domain
        self._authenticate(password)

    def _connect(self):
        pipe = transport.DCERPCTransportFactory("ncacn_np:127.0.0.1[\\pipe\\netlogon]")
        pipe.set_dport(self.port)
        pipe.set_credentials("", "", "")
        dce = pipe.get_dce_rpc()
        dce.connect()
        return dce

    def _authenticate(self, password):
        """NetrServerReqChallenge and NetrServerAuthenticate3, over a connection of their own: the key of the channel."""
        dce = self._connect()
        dce.bind(nrpc.MSRPC_UUID_NRPC)
        challenge = os.urandom(8)
        answer = nrpc.hNetrServerReqChallenge(dce, NULL, self.computer + "\x00", challenge)
        self.key = nrpc.ComputeSessionKeyAES(password, challenge, answer["ServerChallenge"])
        self.credential = nrpc.ComputeNetlogonCredential(challenge, self.key)
        kind = nrpc.NETLOGON_SECURE_CHANNEL_TYPE.WorkstationSecureChannel
        answer = nrpc.hNetrServerAuthenticate3(dce, NULL, self.computer + "$\x00", kind, self.computer + "\x00",
                                               self.credential, WANTED)
        self.flags = answer["NegotiateFlags"]
        dce.disconnect()

    def bind(self, request):
        """Binds with an NL_AUTH request. -> the server's NL_AUTH response. rpcrt.DCERPCException where the bind is refused"""
        self.dce = self._connect()
        self.dce.set_credentials(self.computer + "$", "", self.domain)
        self.dce.set_auth_type(rpcrt.RPC_C_AUTHN_NETLOGON)
        self.dce.set_auth_level(rpcrt.RPC_C_AUTHN_LEVEL_PKT_PRIVACY)  # after set_credentials, which sets another
        self.dce.set_session_key(self.key)
        with mock.patch.object(nrpc, "getSSPType1", lambda *_, **__: request):
            answer = self.dce.bind(nrpc.MSRPC_UUID_NRPC)
        return bytes(rpcrt.MSRPCBindAck(answer.getData())["auth_data"])

    def capabilities(self):
        """NetrLogonGetCapabilities, sealed both ways -> the flags that the server has for the channel"""
        authenticator = nrpc.ComputeNetlogonAuthenticator(self.credential, self.key)
        answer = nrpc.hNetrLogonGetCapabilities(self.dce, self.server + "\x00", self.computer + "\x00", authenticator)
        self.dce.disconnect()
        return answer["ServerCapabilities"]["ServerCapabilities"]
