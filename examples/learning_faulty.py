"""A learning switch for os-ken with a fault, as an example for docs/EXPLORE.md: it forgets that hosts move.

If a host moves to another port, the flow to its old port stays: a peer that has talked to it before does not reach it any more, for
as long as the peer sends. Many learning switches have this fault, also in tutorials. learning.py is the one to copy: it deletes these
flows as soon as an address comes from another port.
"""
from os_ken.base import app_manager
from os_ken.controller import ofp_event
from os_ken.controller.handler import CONFIG_DISPATCHER, MAIN_DISPATCHER, set_ev_cls
from os_ken.lib.packet import ethernet, packet
from os_ken.ofproto import ofproto_v1_3


class Learning(app_manager.OSKenApp):
    OFP_VERSIONS = [ofproto_v1_3.OFP_VERSION]

    def __init__(self, *args, **words):
        super().__init__(*args, **words)
        self.learned = {}

    def add(self, path, priority, match, actions):
        of, parser = path.ofproto, path.ofproto_parser
        todo = [parser.OFPInstructionActions(of.OFPIT_APPLY_ACTIONS, actions)]
        path.send_msg(parser.OFPFlowMod(path, priority=priority, match=match, instructions=todo))

    @set_ev_cls(ofp_event.EventOFPSwitchFeatures, CONFIG_DISPATCHER)
    def features(self, event):
        path = event.msg.datapath
        of, parser = path.ofproto, path.ofproto_parser
        every = {"table_id": of.OFPTT_ALL, "out_port": of.OFPP_ANY, "out_group": of.OFPG_ANY}
        path.send_msg(parser.OFPFlowMod(path, command=of.OFPFC_DELETE, **every))
        self.add(path, 0, parser.OFPMatch(), [parser.OFPActionOutput(of.OFPP_CONTROLLER, of.OFPCML_NO_BUFFER)])

    @set_ev_cls(ofp_event.EventOFPPacketIn, MAIN_DISPATCHER)
    def packet_in(self, event):
        msg = event.msg
        path, port = msg.datapath, msg.match["in_port"]
        of, parser = path.ofproto, path.ofproto_parser
        eth = packet.Packet(msg.data).get_protocol(ethernet.ethernet)
        learned = self.learned.setdefault(path.id, {})
        # the fault is here: nothing is done about the flows to an earlier port of the address
        learned[eth.src] = port
        out = learned.get(eth.dst, of.OFPP_FLOOD)
        actions = [parser.OFPActionOutput(out)]
        if out != of.OFPP_FLOOD:
            self.add(path, 1, parser.OFPMatch(in_port=port, eth_dst=eth.dst, eth_src=eth.src), actions)
        path.send_msg(parser.OFPPacketOut(path, msg.buffer_id, port, actions, msg.data))
