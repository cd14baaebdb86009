% There is no `accumulate`: the command names all files, and they are one program in its order, as in
% `./doqwesha run --query GOAL lib/lists.lp mine.lp`. As a clause, the word is refused nowhere; but nothing is read by it.
accumulate lists.
%? append [a] [b] Zs
%= fault: unknown
