# Which packets are dropped after their first hop, and where?
switch s1 = 1 ports 1, 2;
switch s2 = 2 ports 1, 2;
link s1 2 s2 1;
part s1 = filter(switch=s1) >> fwd(2);
part s2 = filter(switch=s2 and not tcp_dst=23) >> fwd(2);
query lost = in_atom(true) ^ in_atom(true)* ^ end_atom(true);
