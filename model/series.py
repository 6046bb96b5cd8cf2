"""02, request 9: a list of requests in one call. Packets stand in a row, each behind three words, its link, BC and length; so do the replies,
each behind two, its BC and length."""

from dataclasses import replace

from group import AREA
from node import request

BEFORE_PACKET = 3  # words: link, BC, length
BEFORE_REPLY = 2  # BC, length
ROOM = BEFORE_REPLY + AREA  # words that a packet has to find for its reply
LARGEST_BC = 3


def packets_in(words):
    """The packets of a list, each as link, BC and words; None where one of them, or its three words, runs past the end."""
    packets, at = [], 0
    while at < len(words):
        if at + BEFORE_PACKET > len(words):
            return None
        link, bc, length = words[at:at + BEFORE_PACKET]
        at += BEFORE_PACKET
        if at + length > len(words):
            return None
        packets.append((link, bc, words[at:at + length]))
        at += length
    return packets


def alone(node, lent, at, now, link, bc, packet):
    """The node behind a packet's own call, and how far the replies are filled then; None where the list stops before it. Neither a refused
    call nor one that asks a slave changes anything lent."""
    if bc > LARGEST_BC or len(lent.reply) - at < ROOM:
        return None
    buffer = lent.reply[at + BEFORE_REPLY:]
    node, answer = request(node, replace(lent, reply=buffer), now, link, bc, 0, packet)
    if answer[0] != "reply":
        return None
    _, reply_bc, count = answer
    lent.reply[at:] = [reply_bc, count] + buffer
    return node, at + BEFORE_REPLY + count


def requests(node, lent, now, words):
    """The call: what is lent as reply buffer is the run of the replies. It answers ("refused", 10) or ("done", how many packets were)."""
    packets = packets_in(words)
    if packets is None:
        return node, ("refused", 10)
    at = 0
    for done, packet in enumerate(packets):
        went_on = alone(node, lent, at, now, *packet)
        if went_on is None:
            return node, ("done", done)
        node, at = went_on
    return node, ("done", len(packets))
