% Is there a plan at this interval? Where units are busy for one slot, the starts alone: instances exist exactly when no
% slot holds more operations of a limited type than it has instances. Else two operations on one unit are as many slots
% apart, either way round, as it is busy. encodings_of_plans.py writes the data; first[i] and last[i] are the first and
% the last start of i that window and horizon allow, too_busy says that some unit would be busy for longer than the
% interval.
include "alldifferent.mzn";
include "global_cardinality_low_up.mzn";

int: n;
int: horizon;
int: interval;
array[1..n] of int: first;
array[1..n] of int: last;
int: e;
array[1..e] of int: source;
array[1..e] of int: target;
array[1..e] of int: lag;
int: g;
array[1..g] of int: instances;
array[1..g] of int: busy;
array[1..g] of set of int: members;
bool: too_busy;

array[1..n] of var 0..horizon - 1: start;
array[1..n] of var 0..interval - 1: slot;
array[1..n] of var 0..horizon div interval: stage;
array[1..n] of var 0..7: unit;

constraint forall(i in 1..n)(first[i] <= start[i] /\ start[i] <= last[i]);
constraint forall(i in 1..n)(start[i] = interval * stage[i] + slot[i]);
constraint forall(k in 1..e)(start[source[k]] + lag[k] <= start[target[k]]);
constraint not too_busy;
constraint forall(k in 1..g where busy[k] = 1)(
  if instances[k] = 1 then all_different([slot[i] | i in members[k]])
  else global_cardinality_low_up([slot[i] | i in members[k]], [s | s in 0..interval - 1],
                                 [0 | s in 0..interval - 1], [instances[k] | s in 0..interval - 1])
  endif
);
constraint forall(k in 1..g where busy[k] > 1)(
  forall(i in members[k])(unit[i] < min(instances[k], 1 + card({j | j in members[k] where j < i}))) /\
  forall(i, j in members[k] where i < j)(
    unit[i] != unit[j] \/
    (busy[k] <= abs(slot[i] - slot[j]) /\ abs(slot[i] - slot[j]) <= interval - busy[k])
  )
);
constraint forall(i in 1..n where not exists(k in 1..g)(busy[k] > 1 /\ i in members[k]))(unit[i] = 0);

solve :: int_search(start, dom_w_deg, indomain_min) satisfy;
