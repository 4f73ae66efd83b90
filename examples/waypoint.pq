# Which packets leave at web after the scrubber has seen them?
switch edge = 1 ports 1, 2, 3;
switch scrubber = 2 ports 1, 2;
switch web = 3 ports 1, 2, 3;
link edge 2 scrubber 1;
link scrubber 2 web 1;
link edge 3 web 3;
# What comes from 192.0.2.0/24 is scrubbed.
part edge = filter(switch=edge) >> if(ipv4_src=192.0.2.0/24, fwd(2), fwd(3));
part scrubber = filter(switch=scrubber) >> fwd(2);
part web = filter(switch=web) >> fwd(2);
query scrubbed = in_atom(true)* ^ in_atom(switch=scrubber) ^ in_atom(true)* ^ out_atom(switch=web and port=2);
