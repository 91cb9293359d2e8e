"""A firewall for os-ken with a race, as an example for docs/EXPLORE.md.

Port 1 is inside, port 2 outside. If a host inside speaks to a peer first, the peer may answer. A frame from outside that comes
without such a pair is taken for an attack, and its sender is blocked for ever. Frames to all only pass from inside. The fault: the PACKET_OUT leaves before the FLOW_MODs of the pair, so
an answer may come before they are there. The flows first, then a BARRIER_REQUEST, and the PACKET_OUT after its reply would be right.
"""
from os_ken.base import app_manager
from os_ken.controller import ofp_event
from os_ken.controller.handler import CONFIG_DISPATCHER, MAIN_DISPATCHER, set_ev_cls
from os_ken.ofproto import ofproto_v1_3

INSIDE, OUTSIDE = 1, 2


class Firewall(app_manager.OSKenApp):
    OFP_VERSIONS = [ofproto_v1_3.OFP_VERSION]

    def add(self, path, priority, ports, **fields):
        of, parser = path.ofproto, path.ofproto_parser
        actions = [parser.OFPActionOutput(port, of.OFPCML_NO_BUFFER) for port in ports]
        todo = [parser.OFPInstructionActions(of.OFPIT_APPLY_ACTIONS, actions)] if ports else []
        path.send_msg(parser.OFPFlowMod(path, priority=priority, match=parser.OFPMatch(**fields), instructions=todo))

    @set_ev_cls(ofp_event.EventOFPSwitchFeatures, CONFIG_DISPATCHER)
    def features(self, event):
        self.add(event.msg.datapath, 0, [ofproto_v1_3.OFPP_CONTROLLER])

    @set_ev_cls(ofp_event.EventOFPPacketIn, MAIN_DISPATCHER)
    def packet_in(self, event):
        msg = event.msg
        path, port = msg.datapath, msg.match["in_port"]
        to, source = msg.data[:6].hex(":"), msg.data[6:12].hex(":")
        is_to_all = bool(msg.data[0] & 1)
        if port == OUTSIDE:
            if not is_to_all:
                self.add(path, 20, [], in_port=OUTSIDE, eth_src=source)
            return
        parser = path.ofproto_parser
        path.send_msg(parser.OFPPacketOut(path, path.ofproto.OFP_NO_BUFFER, port, [parser.OFPActionOutput(OUTSIDE)], msg.data))
        if not is_to_all:
            self.add(path, 10, [OUTSIDE], in_port=INSIDE, eth_dst=to, eth_src=source)
            self.add(path, 10, [INSIDE], in_port=OUTSIDE, eth_dst=source, eth_src=to)
