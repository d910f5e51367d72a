%% Functions by their names, {Name, Arity} => function, where each is kept as bytes: a program needs a few of the library's
%% two thousand, and only these are made terms.
-module(packed_functions).

-export([pack/1, function/2]).

pack(Functions) -> maps:map(fun(_, Function) -> term_to_binary(Function) end, Functions).

function(Name, Packed) -> binary_to_term(maps:get(Name, Packed)).
