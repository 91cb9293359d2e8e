"""A learning switch for os-ken: `osken-manager learning.py`.

It has a table of addresses for each switch, and adds a flow for each pair of addresses. If an address comes from another port than
before, its host has moved, and the flows to it and from it are deleted (without this, see learning_faulty.py). In a ring, a flooded frame would circulate
for ever: BLOCKED=1:4,16:4 turns off port 4 of the switches with the datapath ids 1 and 16, so the link between them is not used.
"""
import os

from os_ken.base import app_manager
from os_ken.controller import ofp_event
from os_ken.controller.handler import CONFIG_DISPATCHER, MAIN_DISPATCHER, set_ev_cls
from os_ken.lib.packet import ethernet, packet
from os_ken.ofproto import ofproto_v1_3

LLDP = 0x88CC
# the ports that are not used, by the datapath id
BLOCKED = {}
for word in filter(None, os.environ.get("BLOCKED", "").split(",")):
    path_id, _, number = word.partition(":")
    BLOCKED.setdefault(int(path_id, 0), set()).add(int(number))


class Learning(app_manager.OSKenApp):
    OFP_VERSIONS = [ofproto_v1_3.OFP_VERSION]

    def __init__(self, *args, **words):
        super().__init__(*args, **words)
        self.learned = {}

    def add(self, path, priority, match, actions):
        of, parser = path.ofproto, path.ofproto_parser
        todo = [parser.OFPInstructionActions(of.OFPIT_APPLY_ACTIONS, actions)]
        path.send_msg(parser.OFPFlowMod(path, priority=priority, match=match, instructions=todo))

    def delete(self, path, match):
        of, parser = path.ofproto, path.ofproto_parser
        every = {"table_id": of.OFPTT_ALL, "out_port": of.OFPP_ANY, "out_group": of.OFPG_ANY}
        path.send_msg(parser.OFPFlowMod(path, command=of.OFPFC_DELETE, match=match, **every))

    @set_ev_cls(ofp_event.EventOFPSwitchFeatures, CONFIG_DISPATCHER)
    def features(self, event):
        path = event.msg.datapath
        of, parser = path.ofproto, path.ofproto_parser
        # the flows of an earlier run name addresses that this one has not learned
        self.delete(path, parser.OFPMatch())
        self.add(path, 0, parser.OFPMatch(), [parser.OFPActionOutput(of.OFPP_CONTROLLER, of.OFPCML_NO_BUFFER)])
        if path.id in BLOCKED:
            path.send_msg(parser.OFPPortDescStatsRequest(path))

    @set_ev_cls(ofp_event.EventOFPPortDescStatsReply, MAIN_DISPATCHER)
    def ports(self, event):
        path = event.msg.datapath
        of, parser = path.ofproto, path.ofproto_parser
        off = of.OFPPC_NO_RECV | of.OFPPC_NO_FWD
        for port in event.msg.body:
            if port.port_no in BLOCKED.get(path.id, ()):
                path.send_msg(parser.OFPPortMod(path, port.port_no, port.hw_addr, off, off))

    @set_ev_cls(ofp_event.EventOFPPacketIn, MAIN_DISPATCHER)
    def packet_in(self, event):
        msg = event.msg
        path, port = msg.datapath, msg.match["in_port"]
        of, parser = path.ofproto, path.ofproto_parser
        eth = packet.Packet(msg.data).get_protocol(ethernet.ethernet)
        if eth.ethertype == LLDP:
            return
        learned = self.learned.setdefault(path.id, {})
        if learned.get(eth.src, port) != port:
            self.delete(path, parser.OFPMatch(eth_dst=eth.src))
            # from its old port, to which it may return: its frames have to come here then
            self.delete(path, parser.OFPMatch(eth_src=eth.src))
        learned[eth.src] = port
        out = learned.get(eth.dst, of.OFPP_FLOOD)
        actions = [parser.OFPActionOutput(out)]
        if out != of.OFPP_FLOOD:
            self.add(path, 1, parser.OFPMatch(in_port=port, eth_dst=eth.dst, eth_src=eth.src), actions)
        path.send_msg(parser.OFPPacketOut(path, msg.buffer_id, port, actions, msg.data))
