"""The two ends of a join: the JRC and a pledge. aiocoap carries their messages, the library reads, writes and decides.

Section numbers are those of draft-ietf-6tisch-minimal-security-06."""
import asyncio

import aiocoap
from aiocoap import oscore, resource
from aiocoap.numbers import BAD_REQUEST, CHANGED, NON, POST
from aiocoap.numbers.optionnumbers import OptionNumber

import library

HOST = "6tisch.arpa"
PATH = "j"
# The draft says "TBD". This number is of the experimental range; it means critical, safe to forward, no part of the cache key.
STATELESS_PROXY = OptionNumber(65021)
NO_RESPONSE = 26  # RFC 7967: no response of any class
POLL_STEP = 80000  # ms by the node's clock, more than any timeout


def say(who, *words):
    print("%-8s" % who, *words, flush=True)


class ProtectedResource(resource.Resource):
    """The resource /j, which OSCORE alone reaches. A message that OSCORE does not open is dropped without a response (9.1.3)."""

    def __init__(self, name, contexts):
        super().__init__()
        self.name, self.contexts, self.dropped = name, contexts, []

    async def needs_blockwise_assembly(self, request):
        return False

    async def render(self, outer):
        try:
            hints = oscore.verify_start(outer)
            context = next(c for c in self.contexts if c.get_oscore_context_for(hints))
            inner, request_id = context.unprotect(outer)
        except (oscore.NotAProtectedMessage, oscore.ProtectionInvalid, StopIteration) as e:
            self.dropped.append(type(e).__name__)
            say(self.name, "drops a request:", type(e).__name__, e)
            return aiocoap.Message(code=CHANGED, no_response=NO_RESPONSE)
        known = inner.code == POST and inner.opt.uri_path == (PATH,)
        answer = self.serve(context, inner.payload) if known else None
        protected, _ = context.protect(answer or aiocoap.Message(code=BAD_REQUEST), request_id)
        for option in outer.opt.get_option(STATELESS_PROXY):  # "the CoAP server MUST echo it in the response" (10)
            protected.opt.add_option(STATELESS_PROXY.create_option(value=option.value))
        return protected


class Jrc(ProtectedResource):
    """Grants addresses to the boards whose contexts it has, and updates them."""

    def __init__(self, contexts, network, key, lease):
        super().__init__("JRC", contexts)
        self.network, self.key, self.lease = network, key, lease
        self.ledger = library.Ledger(0x1000, 100)

    def serve(self, context, payload):
        try:
            network = library.requested_network(context.version, payload)
            if network != self.network:
                return say("JRC", "is not of network", network.hex())
            address = self.ledger.grant(context.id_context)
            configuration = library.configuration(context.version, self.key, address, self.lease)
        except library.Refused as refusal:
            return say("JRC", payload.hex(), "refused", refusal)
        say("JRC", "grants %s to %s: %s" % (address.hex(), context.id_context.hex(), configuration.hex()))
        return aiocoap.Message(code=CHANGED, payload=configuration)

    async def update(self, end, board, remote, payload):
        """A parameter update (9.2): the JRC is the client. Returns the code of the response."""
        context = next(c for c in self.contexts if c.id_context == board)
        outer, request_id = context.protect(aiocoap.Message(code=POST, uri_path=[PATH], payload=payload))
        outer.unresolved_remote = remote
        inner, _ = context.unprotect(await end.request(outer, handle_blockwise=False).response, request_id)
        say("JRC", "updates with", payload.hex(), "->", inner.code)
        return inner.code


class Pledge(ProtectedResource):
    """A board: a node with its clock, which the waiting does not follow, so that a run takes no minutes."""

    def __init__(self, name, context, network):
        super().__init__(name, [context])
        self.context, self.clock = context, 0
        self.node = library.Node(context.version, network)

    def protected(self, payload):
        """A join request (9.1.1) and what OSCORE needs to open its response."""
        outer, request_id = self.context.protect(aiocoap.Message(code=POST, uri_host=HOST, uri_path=[PATH], payload=payload))
        outer.opt.proxy_scheme = "coap"
        outer.mtype = NON
        return outer, request_id

    async def join(self, end, proxy, patience):
        """Sends the join request until a response comes or the node gives up. Each sending has a new sequence number."""
        request = self.node.start(self.clock)
        say(self.name, "asks", request.hex())
        while True:
            outer, request_id = self.protected(request)
            outer.unresolved_remote = proxy
            try:
                response = await asyncio.wait_for(end.request(outer, handle_blockwise=False).response, patience)
                inner, _ = self.context.unprotect(response, request_id)
                return inner.code == CHANGED and self.take(self.node.answer, inner.payload)
            except (asyncio.TimeoutError, oscore.NotAProtectedMessage, oscore.ProtectionInvalid) as e:
                say(self.name, "has no response:", type(e).__name__)
            self.clock += POLL_STEP
            if not self.node.sends_again(self.clock):
                say(self.name, "gives up")
                return False
            say(self.name, "sends again at %d ms" % self.clock)

    def take(self, call, payload):
        self.clock += 1000
        try:
            call(self.clock, payload)
        except library.Refused as refusal:
            say(self.name, payload.hex(), "refused", refusal)
            return False
        say(self.name, "takes", payload.hex())
        return True

    def serve(self, context, payload):
        return aiocoap.Message(code=CHANGED) if self.take(self.node.update, payload) else None
