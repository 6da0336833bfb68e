// The line of a description of line_sim in ns-3: a street or a tower of meters, each of which sends a reading of 40 octets to node 0 every 15 minutes.
//
//     g++ -O2 -o /tmp/ns3_line extras/ns3/line.cc $(pkg-config --cflags --libs ns3-aodv ns3-lr-wpan ns3-sixlowpan ns3-wifi)
//     /tmp/ns3_line --topo=street --mode=static --hours=24 --RngRun=1
//
// ns-3 has no LOADng, no power line and no EAP-PSK, and its AODV neither runs over IPv6 nor over lr-wpan. So there are three stand-ins over the same links
// with the same loss of each (loss per cent from the next node, step more for each one farther):
//
//     static  IEEE 802.15.4 at 250 kbit/s, 6LoWPAN, and the cheapest way to node 0 as a static route: the best that any routing can find
//     mesh    the same below, and the flooding of 6LoWPAN's "mesh under", which has no routes
//     aodv    802.11b at 1 Mbit/s and AODV without hellos: routes on demand, as LOADng has them
//
// The result is one line of JSON. It was written for ns-3.37, in the packages libns3-dev and libgsl-dev of Debian 12.
#include "ns3/aodv-module.h"
#include "ns3/core-module.h"
#include "ns3/internet-module.h"
#include "ns3/lr-wpan-module.h"
#include "ns3/mobility-module.h"
#include "ns3/network-module.h"
#include "ns3/propagation-module.h"
#include "ns3/sixlowpan-module.h"
#include "ns3/spectrum-module.h"
#include "ns3/wifi-module.h"

#include <algorithm>
#include <cmath>
#include <cstring>
#include <map>
#include <set>
#include <vector>

using namespace ns3;

static const uint32_t OCTETS = 40;
static const uint32_t REPEATS = 5; // as air.repeats
static const double NEVER = 1e18;

struct Options
{
    std::string topo = "street", mode = "static";
    uint32_t meters = 20, reach = 3, floors = 5, flats = 4;
    double loss = 10, step = 5, hours = 24;
};

// The loss of each link in per cent, by its sender and its hearer.
using Links = std::map<std::pair<uint32_t, uint32_t>, double>;

// Loses each frame of a link by a draw of its own, and all between nodes without a link.
class LinkLoss : public PropagationLossModel
{
  public:
    static TypeId GetTypeId()
    {
        static TypeId type = TypeId("ns3::LinkLoss").SetParent<PropagationLossModel>().AddConstructor<LinkLoss>();
        return type;
    }

    Links links;

  private:
    double DoCalcRxPower(double power, Ptr<MobilityModel> from, Ptr<MobilityModel> to) const override
    {
        auto link = links.find({from->GetObject<Node>()->GetId(), to->GetObject<Node>()->GetId()});
        bool lost = link == links.end() || m_draw->GetValue(0, 100) < link->second;
        return power - (lost ? 1000 : 20);
    }

    int64_t DoAssignStreams(int64_t stream) override
    {
        m_draw->SetStream(stream);
        return 1;
    }

    Ptr<UniformRandomVariable> m_draw = CreateObject<UniformRandomVariable>();
};

struct Reading
{
    uint32_t node, round;
    int64_t at; // microseconds
};

static uint64_t g_sent, g_twice;
static std::vector<double> g_delays, g_hops; // milliseconds; of each reading that came
static std::set<std::pair<uint32_t, uint32_t>> g_came;

static void
Send(Ptr<Socket> socket, Address to, uint32_t node, uint32_t round)
{
    uint8_t octets[OCTETS] = {};
    Reading reading{node, round, Simulator::Now().GetMicroSeconds()};
    std::memcpy(octets, &reading, sizeof reading);
    g_sent++;
    socket->SendTo(octets, OCTETS, 0, to);
}

static void
Receive(Ptr<Socket> socket)
{
    while (Ptr<Packet> packet = socket->Recv())
    {
        Reading reading;
        uint8_t octets[OCTETS];
        packet->CopyData(octets, OCTETS);
        std::memcpy(&reading, octets, sizeof reading);
        if (!g_came.insert({reading.node, reading.round}).second)
        {
            g_twice++;
            continue;
        }
        g_delays.push_back((Simulator::Now().GetMicroSeconds() - reading.at) / 1000.0);
        SocketIpv6HopLimitTag limit;
        SocketIpTtlTag live;
        if (packet->PeekPacketTag(limit))
            g_hops.push_back(65 - limit.GetHopLimit());
        else if (packet->PeekPacketTag(live))
            g_hops.push_back(65 - live.GetTtl());
    }
}

// Node 0 is the coordinator, at the end of a street, or below the lowest floor of all risers. Places are ten units apart.
static std::vector<Vector>
Places(const Options& o)
{
    std::vector<Vector> places;
    uint32_t riser = o.floors * o.flats;
    for (uint32_t i = 0; i <= o.meters; i++)
    {
        if (o.topo == "tower")
            places.push_back(i == 0 ? Vector(0, -10, 0) : Vector((i - 1) / riser * 100 + (i - 1) % o.flats, (i - 1) / o.flats % o.floors * 10, 0));
        else
            places.push_back(Vector(i * 10, 0, 0));
    }
    return places;
}

static Links
LinksOf(const Options& o, const std::vector<Vector>& places)
{
    Links links;
    uint32_t riser = o.floors * o.flats;
    for (uint32_t a = 0; a <= o.meters; a++)
        for (uint32_t b = 0; b <= o.meters; b++)
        {
            double apart = CalculateDistance(places[a], places[b]) / 10;
            if (o.topo == "tower") // within a riser by whole floors; the coordinator hears the lowest floors of each
                apart = a && b && (a - 1) / riser != (b - 1) / riser ? NEVER : std::max(1.0, std::abs(places[a].y - places[b].y) / 10);
            if (a != b && apart <= o.reach)
                links[{a, b}] = std::min(99.0, o.loss + o.step * std::floor(apart - 1));
        }
    return links;
}

// The next hop of each node on the cheapest way to node 0, where a link costs eight times the tries that a frame takes.
static std::vector<uint32_t>
NextHops(const Options& o, const Links& links)
{
    std::vector<double> cost(o.meters + 1, NEVER);
    std::vector<uint32_t> next(o.meters + 1, 0);
    cost[0] = 0;
    for (uint32_t round = 0; round <= o.meters; round++)
        for (const auto& [ends, loss] : links)
        {
            double total = cost[ends.second] + std::ceil(8 / (1 - loss / 100));
            if (total < cost[ends.first])
            {
                cost[ends.first] = total;
                next[ends.first] = ends.second;
            }
        }
    return next;
}

// The devices of IEEE 802.15.4 under 6LoWPAN.
static NetDeviceContainer
PersonalAreaNetwork(const Options& o, NodeContainer nodes, Ptr<LinkLoss> air)
{
    Ptr<SingleModelSpectrumChannel> channel = CreateObject<SingleModelSpectrumChannel>();
    channel->AddPropagationLossModel(air);
    channel->SetPropagationDelayModel(CreateObject<ConstantSpeedPropagationDelayModel>());
    LrWpanHelper& wpan = *new LrWpanHelper; // its end would be that of the channel
    wpan.SetChannel(channel);
    NetDeviceContainer devices = wpan.Install(nodes);
    wpan.AssociateToPan(devices, 10);
    for (uint32_t i = 0; i < devices.GetN(); i++)
    {
        Ptr<LrWpanNetDevice> device = devices.Get(i)->GetObject<LrWpanNetDevice>();
        device->GetMac()->SetMacMaxFrameRetries(REPEATS);
        device->GetCsmaCa()->SetMacMaxBE(8);
        device->GetCsmaCa()->SetMacMaxCSMABackoffs(5); // IEEE 802.15.4 has no more
    }
    InternetStackHelper stack;
    stack.SetIpv4StackInstall(false);
    stack.Install(nodes);
    SixLowPanHelper six;
    if (o.mode == "mesh")
    {
        six.SetDeviceAttribute("UseMeshUnder", BooleanValue(true));
        six.SetDeviceAttribute("MeshUnderRadius", UintegerValue(14));
    }
    return six.Install(devices);
}

// The sockets of all nodes over 6LoWPAN. Returns the address of node 0.
static Address
BySixLowPan(const Options& o, NodeContainer nodes, Ptr<LinkLoss> air, std::vector<Ptr<Socket>>& sockets)
{
    // Else each relay tells the sender to talk to node 0 directly.
    Config::SetDefault("ns3::Ipv6L3Protocol::SendIcmpv6Redirect", BooleanValue(false));
    NetDeviceContainer devices = PersonalAreaNetwork(o, nodes, air);
    Ipv6AddressHelper addresses;
    addresses.SetBase(Ipv6Address("2001:1::"), Ipv6Prefix(64)); // 2001:db8:: would not be forwarded
    Ipv6InterfaceContainer interfaces = addresses.Assign(devices);
    std::vector<uint32_t> next = NextHops(o, air->links);
    Ipv6StaticRoutingHelper routing;
    for (uint32_t i = 0; i <= o.meters; i++)
    {
        interfaces.SetForwarding(i, true);
        if (o.mode == "static" && i)
            routing.GetStaticRouting(nodes.Get(i)->GetObject<Ipv6>())
                ->AddHostRouteTo(interfaces.GetAddress(0, 1), interfaces.GetAddress(next[i], 0), interfaces.GetInterfaceIndex(i));
        sockets.push_back(Socket::CreateSocket(nodes.Get(i), UdpSocketFactory::GetTypeId()));
        // A source with a link-local address would not be forwarded.
        sockets[i]->Bind(i ? Inet6SocketAddress(interfaces.GetAddress(i, 1), 10) : Inet6SocketAddress(Ipv6Address::GetAny(), 9));
    }
    sockets[0]->SetIpv6RecvHopLimit(true);
    return Inet6SocketAddress(interfaces.GetAddress(0, 1), 9);
}

// The same over AODV and 802.11b.
static Address
ByAodv(const Options& o, NodeContainer nodes, Ptr<LinkLoss> air, std::vector<Ptr<Socket>>& sockets)
{
    Ptr<YansWifiChannel> channel = CreateObject<YansWifiChannel>();
    channel->SetPropagationLossModel(air);
    channel->SetPropagationDelayModel(CreateObject<ConstantSpeedPropagationDelayModel>());
    YansWifiPhyHelper phy;
    phy.SetChannel(channel);
    WifiHelper wifi;
    wifi.SetStandard(WIFI_STANDARD_80211b);
    wifi.SetRemoteStationManager("ns3::ConstantRateWifiManager", "DataMode", StringValue("DsssRate1Mbps"), "ControlMode", StringValue("DsssRate1Mbps"),
                                 "MaxSlrc", UintegerValue(REPEATS + 1), "MaxSsrc", UintegerValue(REPEATS + 1));
    WifiMacHelper mac;
    mac.SetType("ns3::AdhocWifiMac");
    NetDeviceContainer devices = wifi.Install(phy, mac, nodes);
    AodvHelper aodv;
    aodv.Set("EnableHello", BooleanValue(false));
    aodv.Set("ActiveRouteTimeout", TimeValue(Hours(6))); // as a route lives at a node of Kennelmorn
    aodv.Set("MyRouteTimeout", TimeValue(Hours(6)));
    InternetStackHelper stack;
    stack.SetRoutingHelper(aodv);
    stack.Install(nodes);
    Ipv4AddressHelper addresses;
    addresses.SetBase("10.1.0.0", "255.255.0.0");
    Ipv4InterfaceContainer interfaces = addresses.Assign(devices);
    for (uint32_t i = 0; i <= o.meters; i++)
    {
        sockets.push_back(Socket::CreateSocket(nodes.Get(i), UdpSocketFactory::GetTypeId()));
        sockets[i]->Bind(InetSocketAddress(Ipv4Address::GetAny(), i == 0 ? 9 : 10));
    }
    sockets[0]->SetIpRecvTtl(true);
    return InetSocketAddress(interfaces.GetAddress(0), 9);
}

static void
Report(const Options& o, size_t links)
{
    std::sort(g_delays.begin(), g_delays.end());
    double hops = 0;
    for (double it : g_hops)
        hops += it;
    std::cout << "{\"topo\":\"" << o.topo << "\",\"mode\":\"" << o.mode << "\",\"run\":" << RngSeedManager::GetRun() << ",\"meters\":" << o.meters
              << ",\"links\":" << links << ",\"readings\":" << g_sent << ",\"came\":" << g_came.size() << ",\"twice\":" << g_twice;
    if (!g_delays.empty())
        std::cout << ",\"median_ms\":" << g_delays[g_delays.size() / 2] << ",\"p95_ms\":" << g_delays[g_delays.size() * 95 / 100]
                  << ",\"last_ms\":" << g_delays.back();
    if (!g_hops.empty() && o.mode != "mesh") // a flood counts its hops in a header that is gone here
        std::cout << ",\"hops\":" << hops / g_hops.size() << ",\"most_hops\":" << *std::max_element(g_hops.begin(), g_hops.end());
    std::cout << "}\n";
}

int
main(int argc, char** argv)
{
    Options o;
    CommandLine words(__FILE__);
    words.AddValue("topo", "street or tower", o.topo);
    words.AddValue("mode", "static, mesh or aodv", o.mode);
    words.AddValue("meters", "how many meters; of a tower a multiple of floors times flats", o.meters);
    words.AddValue("reach", "how many houses or floors a node hears", o.reach);
    words.AddValue("floors", "floors of a riser", o.floors);
    words.AddValue("flats", "flats of a floor", o.flats);
    words.AddValue("loss", "per cent from the next node", o.loss);
    words.AddValue("step", "per cent more for each one farther", o.step);
    words.AddValue("hours", "how long; the first reading is due after 15 minutes", o.hours);
    words.Parse(argc, argv);
    if ((o.topo != "street" && o.topo != "tower") || (o.mode != "static" && o.mode != "mesh" && o.mode != "aodv"))
    {
        std::cerr << "topo is street or tower, mode is static, mesh or aodv\n";
        return 2;
    }
    NodeContainer nodes;
    nodes.Create(o.meters + 1);
    std::vector<Vector> places = Places(o);
    Ptr<ListPositionAllocator> list = CreateObject<ListPositionAllocator>();
    for (const Vector& it : places)
        list->Add(it);
    MobilityHelper mobility;
    mobility.SetPositionAllocator(list);
    mobility.SetMobilityModel("ns3::ConstantPositionMobilityModel");
    mobility.Install(nodes);
    Ptr<LinkLoss> air = CreateObject<LinkLoss>();
    air->links = LinksOf(o, places);

    std::vector<Ptr<Socket>> sockets;
    Address to = o.mode == "aodv" ? ByAodv(o, nodes, air, sockets) : BySixLowPan(o, nodes, air, sockets);
    sockets[0]->SetRecvCallback(MakeCallback(&Receive));
    Ptr<UniformRandomVariable> draw = CreateObject<UniformRandomVariable>();
    for (uint32_t round = 1; round * 0.25 < o.hours; round++)
        for (uint32_t i = 1; i <= o.meters; i++)
            Simulator::ScheduleWithContext(i, Seconds(round * 900 + draw->GetValue(0, 900)), &Send, sockets[i], to, i, round);
    Simulator::Stop(Hours(o.hours) + Seconds(900));
    Simulator::Run();
    Report(o, air->links.size());
    Simulator::Destroy();
}
