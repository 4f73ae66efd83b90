# Where does the traffic that reaches web come from?
switch a = 1 ports 1, 2;
switch b = 2 ports 1, 2;
switch core = 3 ports 1, 2, 3;
switch web = 4 ports 1, 2;
link a 2 core 1;
link b 2 core 2;
link core 3 web 1;
part to_web = filter(ipv4_dst=10.0.4.0/24) >> (
    filter(switch=a or switch=b) >> fwd(2) + filter(switch=core) >> fwd(3) + filter(switch=web) >> fwd(2)
);
query sources = in_group(true, [switch of (a, b)]) ^ in_atom(true)* ^ in_atom(switch=web);
