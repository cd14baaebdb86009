% There is no spilling, `print {next 1}`: name the output, and call first.
pred next i:int, o:int.
next N M :- M is N + 1.
%? next 1 N, print N
%= 2
%= answer 1
%=   N = 2
%= no more
%? print {next 1}
%= refused: query:1:7: query
