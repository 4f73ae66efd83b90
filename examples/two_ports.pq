# One switch: what enters at port 1 leaves at port 2, and all else is dropped.
switch s1 = 1 ports 1, 2;
part one = filter(port=1) >> fwd(2);
