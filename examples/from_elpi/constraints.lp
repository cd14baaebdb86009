% A goal that waits for a variable is declared with a list of keys, and never with a lone variable.
%? declare_constraint (of X T) [X]
%= answer 1
%=   X = ?0
%=   T = ?1
%=   delayed [] [] ?- of ?0 ?1
%= no more
