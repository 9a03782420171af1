% The opening list of one vertex, for gringo and clasp. An answer set is a choice of initial vertices
% with all that it opens; in an answer set nothing holds itself up, so a ring opens only from outside.
% Facts: initial(V); needs(V,C,U), where U is in V's row of colour C; target(V). A colour without a
% needed vertex is none. That choices are minimal is left to clasp's enumeration.
colour(V,C) :- needs(V,C,_).
{ chosen(V) } :- initial(V).
open(V) :- chosen(V).
open(V) :- colour(V,C), open(U) : needs(V,C,U).
:- target(V), not open(V).
#show chosen/1.
