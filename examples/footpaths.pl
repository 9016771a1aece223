% query: tour
% The ways down from a summit to the bus. Each rule leads from a place to the next one, so that each answer is one way of
% walking down, with one of the buses.

:- entry(tour).

tour :- summit, bus.

summit :- ridge.
summit :- gully.

ridge :- saddle.
ridge :- hut.
gully :- hut.

saddle :- pasture.
hut :- pasture.
hut :- wood.

pasture :- village.
wood :- village.
wood :- mill.     % the longer way, along the brook
mill :- village.

village.

bus.   % at ten past four
bus.   % at ten past six
