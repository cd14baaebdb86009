% A search has 1,000,000 steps, or as many as `--steps` says; ELPI's may go on for good.
%   ./doqwesha run --steps 100 --query loop examples/from_elpi/steps.lp    writes `out of steps`
loop :- loop.
