% ELPI asks `main`, and -test stops at its first answer. Here the query is a word of the command line, and all answers
% are wanted; `--answers 1` stops at the first.
p a.
p b.
main :- p X, print X.
%? main
%= a
%= answer 1
%= b
%= answer 2
%= no more
