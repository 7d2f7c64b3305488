% Pigeonholes in FOF, without equality: where each pigeon sits in one of three holes, two of four pigeons share one.
fof(sits,axiom, ! [P] : (pigeon(P) => (sits_in(P,left) | sits_in(P,middle) | sits_in(P,right)))).
fof(pigeons,axiom, pigeon(anna) & pigeon(berta) & pigeon(clara) & pigeon(dora)).
fof(two,axiom, are_two(anna,berta) & are_two(anna,clara) & are_two(anna,dora)
             & are_two(berta,clara) & are_two(berta,dora) & are_two(clara,dora)).
fof(goal,conjecture, ? [P,Q,H] : (are_two(P,Q) & sits_in(P,H) & sits_in(Q,H))).
