% ELPI's integers have 63 bits and wrap around. These have 64, and a result outside is the fault `number`.
%? X is 4611686018427387903 + 1
%= answer 1
%=   X = 4611686018427387904
%= no more
%? X is 9223372036854775807 + 1
%= fault: number
