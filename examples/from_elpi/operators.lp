% ELPI takes operators of families of tokens, such as `++`. Here there are those of the manual: write a name in front.
%? X = plus a b
%= answer 1
%=   X = plus a b
%= no more
%? X = a ++ b
%= refused: query:1:8: query
