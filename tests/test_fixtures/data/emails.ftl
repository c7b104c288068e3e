## Two arguments without isolation.
#@ isolating off
msg-key = Hello, { $user }. You have { $emailCount } messages.
#= user="John" emailCount=5 | Hello, John. You have 5 messages.
