% Terms that are one deeper in each conclusion: what an activation costs by the depth of a term. The run with --inferences=1000 is the measure; the
% whole run ends by itself, with an inference of over 4,000 symbols.
cnf(zero,axiom, p(a)).
cnf(next,axiom, ~ p(X) | p(f(X))).
