% ELPI applies an abstraction to anything. Here one stays stuck before a variable without a value, or before another
% abstraction, and unifying it is the fault `redex`; `beta` applies it.
%? F = (a\ f a a), R = F X
%= fault: redex
%? F = (a\ f a a), beta F X R
%= answer 1
%=   F = @0\ f @0 @0
%=   X = ?0
%=   R = f ?0 ?0
%= no more
