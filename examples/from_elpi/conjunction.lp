% ELPI's `A & B` is `A, B`; the character `&` begins no token.
%? X = a, Y = b
%= answer 1
%=   X = a
%=   Y = b
%= no more
%? X = a & Y = b
%= refused: query:1:7: char
