cnf(reads_what_was_written,axiom,get(set(M,V)) = V).
cnf(writes_what_was_read,axiom,set(M,get(M)) = M).
cnf(the_last_writing_counts,axiom,set(set(M,V),W) = set(M,W)).
cnf(different,negated_conjecture,get(set(set(m,v),w)) != v).
