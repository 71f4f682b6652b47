% The cheapest shooting order, of facts: days(scene, days), hold(actor, rate), works(actor, scene), base(pay), where
% base is what is paid in any order.
1 { before(I, J); before(J, I) } 1 :- days(I, _), days(J, _), I < J.
:- before(I, J), before(J, K), before(K, I), I < J, I < K.

% Of an order and its reverse one is enough.
:- before(2, 1).

begun(A, S) :- works(A, I), before(I, S).
needed(A, S) :- works(A, J), before(S, J).
waits(A, S) :- begun(A, S), needed(A, S), not works(A, S).

#minimize { H * D, A, S : waits(A, S), hold(A, H), days(S, D); B : base(B) }.
#show.
