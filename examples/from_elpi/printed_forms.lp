% Variables are printed `?0`, names `#0` and bound names `@0`, where ELPI has `X0`, `c0` and `c0 \ ..`; a list is
% printed by its `::`.
%? pi x\ print (f [x, Y] (y\ g y x))
%= f (#0 :: (?0 :: [])) (@0\ g @0 #0)
%= answer 1
%=   Y = ?0
%= no more
