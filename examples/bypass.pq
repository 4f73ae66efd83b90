# What goes from east to west without passing the firewall?
switch east = 1 ports 1, 2, 3;
switch firewall = 2 ports 1, 2;
switch west = 3 ports 1, 2, 3;
link east 2 firewall 1;
link firewall 2 west 1;
link east 3 west 3;
# Web traffic goes by the firewall; all else takes the direct link.
part from_east = filter(switch=east) >> if(tcp_dst=80 or tcp_dst=443, fwd(2), fwd(3));
part wall = filter(switch=firewall and port=1) >> fwd(2);
part out = filter(switch=west and not port=2) >> fwd(2);
query bypass = in_atom(switch=east) ^ in_atom(not switch=firewall)* ^ in_atom(switch=west);
