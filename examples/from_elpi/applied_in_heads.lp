% In a head no variable is applied: `step (cons V W) M F (F V W).` is refused as `S4`, at the `F` of `F V W`. What is
% applied goes into the body.
pred step i:list, o:term, o:function, o:term.
step nil M F M.
step (cons V W) M F P :- P = F V W.
%? step (cons a b) none (x\ y\ pair x y) P
%= answer 1
%=   P = pair a b
%= no more
