% The barber shaves those of the town who don't shave themselves, and no other one of the town. Where the barber isn't said to live there, no
% contradiction comes of it.
fof(barber,axiom, ! [X] : (in_town(X) => (shaves(barber,X) <=> ~ shaves(X,X)))).
fof(anna,axiom, in_town(anna)).
