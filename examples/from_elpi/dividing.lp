% ELPI's `div` and `mod`, for a dividend that isn't negative and a divisor above 0.
pred divided i:int, i:int, o:int, o:int.
divided N D 0 N :- lt N D, !.
divided N D Q R :- M is N - D, divided M D P R, Q is P + 1.
%? divided 17 5 Q R
%= answer 1
%=   Q = 3
%=   R = 2
%= no more
