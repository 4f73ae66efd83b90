# What goes from each edge switch to each other?
switch a = 1 ports 1, 2;
switch b = 2 ports 1, 2;
switch core = 3 ports 1, 2;
link a 2 core 1;
link b 2 core 2;
part a = filter(switch=a) >> if(ipv4_dst=10.0.1.0/24, fwd(1), fwd(2));
part b = filter(switch=b) >> if(ipv4_dst=10.0.2.0/24, fwd(1), fwd(2));
part core = filter(switch=core) >> (filter(ipv4_dst=10.0.1.0/24) >> fwd(1) + filter(ipv4_dst=10.0.2.0/24) >> fwd(2));
query matrix = in_group(true, [switch of (a, b)]) ^ in_atom(true)* ^ out_group(port=1, [switch of (a, b)]);
