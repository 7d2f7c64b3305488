% Ravens are black, and Anton is a black bird. That Anton is a raven doesn't follow.
fof(ravens_are_birds,axiom, ! [X] : (raven(X) => bird(X))).
fof(ravens_are_black,axiom, ! [X] : (raven(X) => black(X))).
fof(anton,axiom, bird(anton) & black(anton)).
fof(anton_is_a_raven,conjecture, raven(anton)).
