"""A stateless join proxy: what it must know to forward a response returns with the response.

The draft carries these bytes in the Stateless-Proxy option (section 10), RFC 9031 in an extended token (RFC 8974). The library makes and
judges them; this module only forwards."""
import asyncio
import ipaddress
import os

import aiocoap
from aiocoap.numbers import NON

import library
from endpoints import HOST, STATELESS_PROXY, say


class Socket(asyncio.DatagramProtocol):
    """Hands each CoAP message that it receives to a function. What is no message, or is refused, is dropped."""

    def __init__(self, receive):
        self.receive = receive

    def datagram_received(self, data, source):
        try:
            self.receive(aiocoap.Message.decode(data), source)
        except library.Refused as refusal:
            say("proxy", "drops a message: refused", refusal)
        except aiocoap.error.Error as e:
            say("proxy", "drops a datagram:", e)


async def bound(receive, host, port=0):
    transport, _ = await asyncio.get_running_loop().create_datagram_endpoint(lambda: Socket(receive), local_addr=(host, port))
    return transport


class JoinProxy:
    def __init__(self, jrc, version):
        self.jrc, self.version = jrc, version
        self.state = library.JoinProxy(os.urandom(16))
        self.message_id = 0
        self.to_lose = 0

    async def open(self, host):
        """Binds the side of the pledges and that of the JRC. Returns the port that pledges send to."""
        self.pledge_side = await bound(self.request, host)
        self.jrc_side = await bound(self.response, host)
        return self.pledge_side.get_extra_info("sockname")[1]

    def close(self):
        self.pledge_side.close()
        self.jrc_side.close()

    def forwarded(self, message, token, **options):
        """The same code, OSCORE option and payload under another token and message identifier."""
        self.message_id = (self.message_id + 1) & 0xFFFF
        copy = aiocoap.Message(mtype=NON, mid=self.message_id, code=message.code, token=token, payload=message.payload, **options)
        copy.opt.oscore = message.opt.oscore
        return copy

    def request(self, message, source):
        options = message.opt
        if not message.code.is_request() or (options.proxy_scheme, options.uri_host) != ("coap", HOST) or options.oscore is None:
            return say("proxy", "drops what is no join request")
        if self.to_lose:
            self.to_lose -= 1
            return say("proxy", "loses a request")
        interface = ipaddress.IPv6Address(source[0]).packed[8:]
        body = self.state.issue(interface, source[1], message.token)
        say("proxy", "issues", body.hex())
        if self.version == "draft":
            copy = self.forwarded(message, body[:4], uri_host=HOST)  # any token will do
            copy.opt.add_option(STATELESS_PROXY.create_option(value=body))
        else:
            copy = self.forwarded(message, body, uri_host=HOST)
        self.jrc_side.sendto(copy.encode(), self.jrc)

    def response(self, message, source):
        if self.version == "draft":
            bodies = [option.value for option in message.opt.get_option(STATELESS_PROXY)]
        else:
            bodies = [message.token]
        if not message.code.is_response() or len(bodies) != 1:
            return say("proxy", "drops what is no join response")
        interface, port, token = self.state.judge(bodies[0])
        say("proxy", "forwards to interface %s, port %d" % (interface.hex(), port))
        host = str(ipaddress.IPv6Address(bytes(8) + interface))  # here the prefix is that of ::1
        self.pledge_side.sendto(self.forwarded(message, token).encode(), (host, port))
