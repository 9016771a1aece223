% query: kingfisher
% The log of one day at a bird hide: a line for each sighting, in the order of the day. The query answers once for each
% sighting of a kingfisher; another entry asks for another bird.

:- entry(kingfisher).

heron.
mallard.
mallard.
kingfisher.   % upstream, with a fish
coot.
moorhen.
mallard.
reed_bunting.
grey_wagtail.
mallard.
heron.
kingfisher.   % perched on the rail
little_grebe.
coot.
coot.
mute_swan.
mallard.
wren.
robin.
kingfisher.   % heard only
heron.
cormorant.
mallard.
teal.
teal.
gadwall.
coot.
moorhen.
water_rail.
snipe.
kingfisher.   % pair at the bank
mallard.
sedge_warbler.
reed_warbler.
swift.
swift.
swallow.
house_martin.
kingfisher.   % flying downstream
heron.
little_egret.
mallard.
coot.
tufted_duck.
pochard.
shoveler.
kestrel.
kingfisher.   % just before dusk
barn_owl.
mallard.
