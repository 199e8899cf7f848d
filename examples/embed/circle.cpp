// The circle of circle.c by RVO2's verbs. Prints each agent's position after each step: x,y.
#include "crowd.hpp"

#include <cmath>
#include <cstdio>

int main()
{
    const std::size_t agents = 36;
    const double turn = 2 * std::acos(-1.0);

    crowd::Simulator simulator;
    simulator.setAgentDefaults(15000, 10, 10, 4, 500, 400);
    simulator.addObstacle({{-900, -600}, {900, -600}});
    simulator.addObstacle({{-900, 600}, {900, 900}});
    for (std::size_t k = 0; k < agents; k++) {
        const double across = std::cos(turn * k / agents), along = std::sin(turn * k / agents);
        const std::size_t agent = simulator.addAgent({static_cast<std::int32_t>(std::lround(12000 * across)),
                                                      static_cast<std::int32_t>(std::lround(12000 * along))});
        simulator.setAgentPrefVelocity(agent, {static_cast<std::int32_t>(std::lround(-350 * across)),
                                               static_cast<std::int32_t>(std::lround(-350 * along))});
    }
    for (int number = 1; number <= 100; number++) {
        simulator.doStep();
        for (std::size_t k = 0; k < simulator.getNumAgents(); k++) {
            const crowd::Vector2 position = simulator.getAgentPosition(k);
            std::printf("%d,%d\n", position.x, position.y);
        }
    }

    // What is refused says why, and changes nothing.
    simulator.setAgentPosition(7, {0, -600});
    try {
        simulator.doStep();
    } catch (const crowd::Refused &refused) {
        return refused.fault.cause == CROWD_AGENT_ON_SEGMENT && refused.fault.agent == 7 && refused.fault.segment == 0 ? 0 : 1;
    }
    return 1;
}
