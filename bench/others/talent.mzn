% The cheapest shooting order. An actor is paid from his first scene to his last; what he gets for
% the days of his own scenes is the same in any order, and stands in base.
include "inverse.mzn";

int: scenes;
int: actors;
int: base;
set of int: SCENES = 1..scenes;
set of int: ACTORS = 1..actors;
array[SCENES] of int: days;
array[ACTORS] of int: hold;
array[ACTORS] of set of SCENES: works;

% Which scene is shot in each place, and in which place each scene.
array[SCENES] of var SCENES: order;
array[SCENES] of var SCENES: place;
constraint inverse(order, place);

array[ACTORS] of var SCENES: first;
array[ACTORS] of var SCENES: last;
constraint forall(a in ACTORS)(first[a] = min([place[s] | s in works[a]]) /\ last[a] = max([place[s] | s in works[a]]));

% What is paid for waiting while each scene is shot.
array[ACTORS, SCENES] of var bool: waits;
constraint forall(a in ACTORS, s in SCENES)(
    if s in works[a] then not waits[a, s]
    else waits[a, s] <-> (first[a] < place[s] /\ place[s] < last[a]) endif);

var int: cost = base + sum(a in ACTORS, s in SCENES diff works[a])(hold[a] * days[s] * waits[a, s]);

% Of an order and its reverse one is enough.
constraint if scenes > 1 then order[1] < order[scenes] else true endif;

% From both ends to the middle.
array[SCENES] of int: ends = [if t mod 2 = 1 then (t + 1) div 2 else scenes + 1 - t div 2 endif | t in SCENES];

solve :: int_search([order[ends[t]] | t in SCENES], input_order, indomain_min, complete) minimize cost;

output ["cost \(cost)\n"];
