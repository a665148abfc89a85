"""Small models whose traces are worked out by hand."""

# Cools by 0.25 degrees in each step of 10 seconds, from 1.00 down; below 0.60 it is cold.
COOLER = """cosim 1
unit Cooler
  param rate : Fixed 2 = 0.25
  state degrees : Fixed 2 = 1.00
  output degrees_now : Fixed 2 = degrees
  output cold : Bool = degrees < 0.60
  step
    degrees := degrees - rate
  end
end
instance cooler : Cooler
end
stop 30
longest 10
"""

# Has the value n * n at the times 1 and 3, and no event at 0 and 2. At each time `even` is of that time's number.
EVENTS = """cosim 2
unit Source
  state n : Int64 = 0
  output even : Bool = n mod 2 == 0
  event output square : Int64 = if n mod 2 == 1 then n * n else absent
  event output odd : Bool = if n == 3 then true else absent
  step
    n := n + 1
  end
end
instance source : Source
end
stop 3
longest 1
"""

# 10 div 2, 10 div 1, and then 10 div 0, which is fault 3.
DIVIDES = """cosim 1
unit Divides
  state n : Int64 = 2
  output y : Int64 = 10 div n
  step
    n := n - 1
  end
end
instance a : Divides
end
stop 9
longest 1
"""

# Accepts 5 of 10 seconds, and 1 of 5.
REFUSES = """cosim 1
unit Refuses
  output y : Int64 = 7
  step
    accept if h > 5 then 5 else 1
  end
end
instance a : Refuses
end
stop 20
longest 10
"""

# Time stands still from 3 seconds on.
STUCK = """cosim 1
unit Timer
  state left : Int64 = 3
  output seconds : Int64 = left
  max left
  step
    left := left - h
  end
end
instance timer : Timer
end
stop 10
zero 2
"""

# Counts half seconds.
HALVES = """cosim 1
unit Half
  resolution 1
  state n : Int8 = 0
  output y : Int8 = n
  step
    n := n + 1
  end
end
instance half : Half
end
stop 1.5
longest 0.5
"""

# A group of two components, which count from 0 by one a second, of which the group shows one.
NESTED = """group Pair
  instance left : Counter
  end
  instance right : Counter
  end
  out y = left.y
main
cosim 1
unit Counter
  param by : Int8 = 1
  state n : Int64 = 0
  output y : Int64 = n
  step
    n := n + by
  end
end
instance pair : Pair
end
stop 2
longest 1
"""
