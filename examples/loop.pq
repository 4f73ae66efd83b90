# Which packets come to s1 twice?
switch s1 = 1 ports 1, 2;
switch s2 = 2 ports 1, 2;
link s1 2 s2 1;
# s2 sends what it doesn't know back to s1, which sends it to s2.
part s1 = filter(switch=s1) >> fwd(2);
part s2 = filter(switch=s2) >> if(ipv4_dst=10.0.2.0/24, fwd(2), fwd(1));
query twice = in_atom(true)* ^ in_atom(switch=s1) ^ in_atom(true)* ^ in_atom(switch=s1);
