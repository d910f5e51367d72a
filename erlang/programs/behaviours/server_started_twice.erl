%% Two processes start a server of one name: one of them is told that it is there already.
%% words: --after-timeout 5000
%% error: P ends {'result',['ok','there_already'],'one'}
%% error: P ends {'result',['there_already','ok'],'two'}
-module(server_started_twice).
-behaviour(gen_server).
-export([main/0, init/1, handle_call/3, handle_cast/2]).

main() ->
    Main = self(),
    [spawn(fun() -> Main ! {Who, start(Who)} end) || Who <- [one, two]],
    Told = [receive {Who, Answer} -> Answer end || Who <- [one, two]],
    Owner = gen_server:call(counter, who),
    ok = gen_server:stop(counter),
    exit({result, Told, Owner}).

start(Who) ->
    case gen_server:start({local, counter}, ?MODULE, Who, []) of
        {ok, Pid} when is_pid(Pid) -> ok;
        {error, {already_started, Pid}} when is_pid(Pid) -> there_already
    end.

init(Who) -> {ok, Who}.

handle_call(who, _, Who) -> {reply, Who, Who}.

handle_cast(_, Who) -> {noreply, Who}.
