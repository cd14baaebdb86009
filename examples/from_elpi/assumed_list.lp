% ELPI assumes the clauses of a list, `[h a, h b] => G`. Here they stand with `,` between, in brackets.
%? (h a, h b) => h X
%= answer 1
%=   X = a
%= answer 2
%=   X = b
%= no more
%? [h a, h b] => h X
%= fault: not-goal
