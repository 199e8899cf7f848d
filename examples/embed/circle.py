"""The circle of circle.c. Prints each agent's position after each step: x,y."""
import array
import math

import crowd

AGENTS = 36

# 15 numbers an agent in one flat array, as a numpy array of shape (36, 15) would have them
numbers = array.array("i", bytes(AGENTS * 60))
agents = crowd.agents_in(numbers)
for k, agent in enumerate(agents):
    across, along = math.cos(2 * math.acos(-1.0) * k / AGENTS), math.sin(2 * math.acos(-1.0) * k / AGENTS)
    agent.x, agent.y = round(12000 * across), round(12000 * along)
    agent.pref_x, agent.pref_y = round(-350 * across), round(-350 * along)
    agent.radius, agent.speed, agent.range, agent.most, agent.horizon, agent.wall_horizon = 500, 400, 15000, 10, 10, 4
walls = crowd.segments([(-900, -600, 900, -600), (-900, 600, 900, 900)])

for _ in range(100):
    crowd.step(agents, walls)
    for k in range(AGENTS):
        print(f"{numbers[15 * k]},{numbers[15 * k + 1]}")

# What is refused says why, and changes nothing.
agents[7].weight = 17
try:
    crowd.step(agents, walls)
except crowd.Refused as refused:
    assert str(refused) == "agent out of range: agent 7, weight", refused
else:
    raise AssertionError("an agent of weight 17 was taken")
