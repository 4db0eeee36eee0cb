# Prints what shown.cpp has, when it calls `look`.
break look
run
up
print set
print growing
print taken
print moved
print closed
print worker
print ended
print pin
print pool
print numbers
print of_numbers
print map
print in_place
print gone
print of_map
print none
print guard
print typed
print of_typed
print typed_guard
print again
print handle
print unmade
print lost
