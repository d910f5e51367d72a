%% A tree of supervisors: the worker below is asked while it crashes. It is started again, until that is too often for its
%% supervisor, which ends; then the one above starts both again.
%% words: --after-timeout 5000
%% error: P ends {'answer',0}
%% error: P ends {'answer','crashed'}
%% error: P ends {'answer','noproc'}
%% error: P.2.2 ends 'shutdown'
%% error: P.2.2.3 ends 'crashed'
%% error: deadlock of P.2 P.2.6 P.2.6.3
-module(tree).
-behaviour(supervisor).
-export([main/0, init/1]).

main() ->
    process_flag(trap_exit, true),
    {ok, Top} = supervisor:start_link(?MODULE, top),
    Me = self(),
    spawn(fun() -> Me ! {asked, asked()} end),
    gen_server:cast(tree_worker, crash),
    Answer = receive {asked, A} -> A end,
    unlink(Top),
    exit({answer, Answer}).

asked() -> try gen_server:call(tree_worker, count) catch exit:{Why, _} -> Why end.

init(top) -> {ok, {{one_for_one, 1, 5}, [{below, {supervisor, start_link, [?MODULE, below]}, permanent, infinity, supervisor, [?MODULE]}]}};
init(below) -> {ok, {{one_for_one, 0, 5}, [{worker, {tree_worker, start_link, []}, permanent, brutal_kill, worker, [tree_worker]}]}}.
