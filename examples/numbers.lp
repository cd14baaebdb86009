% Integers, cut and printed lines.
pred factorial i:int, o:int.
factorial 0 1 :- !.
factorial N F :- lt 0 N, M is N - 1, factorial M G, F is N * G.

pred down i:int.
down N :- lt N 0, !.
down N :- print N, M is N - 1, down M.
