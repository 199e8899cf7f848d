// crowd.hpp: RVO2's verbs over crowd.h, for C++11. All state is in the object; the library keeps none.
//
//     crowd::Simulator simulator;
//     simulator.setAgentDefaults(15000, 10, 10, 4, 500, 400);
//     const std::size_t agent = simulator.addAgent({0, 0});
//     simulator.addObstacle({{-2000, 900}, {2000, 900}});
//     simulator.setAgentPrefVelocity(agent, {300, 0});
//     simulator.doStep();
//     simulator.getAgentPosition(agent).x
//
// Numbers are whole units and units per step of your choice. RVO2's time step is one step.
#ifndef CROWD_HPP
#define CROWD_HPP

#include "crowd.h"

#include <cstddef>
#include <cstdint>
#include <new>
#include <stdexcept>
#include <vector>

namespace crowd {

struct Vector2 {
    std::int32_t x, y;
};

// A step was refused; nothing changed. The fault has the first cause.
struct Refused : std::invalid_argument {
    explicit Refused(const CrowdFault &first) : std::invalid_argument("the crowd's arrays were refused"), fault(first) {}
    CrowdFault fault;
};

class Simulator {
public:
    // The ring is CROWD_DEFAULT_RING, CROWD_PLAIN_RING or CROWD_FINE_RING.
    explicit Simulator(std::uint32_t ring = CROWD_DEFAULT_RING) : defaults_(), ring_(ring)
    {
        if (crowd_version() != CROWD_VERSION)
            throw std::runtime_error("crowd.hpp and the library are of different versions");
    }

    // What agents have that are added from now on.
    void setAgentDefaults(std::uint32_t neighborDist, std::uint32_t maxNeighbors, std::uint32_t timeHorizon,
                          std::uint32_t timeHorizonObst, std::uint32_t radius, std::uint32_t maxSpeed)
    {
        defaults_.range = neighborDist;
        defaults_.most = maxNeighbors;
        defaults_.horizon = timeHorizon;
        defaults_.wall_horizon = timeHorizonObst;
        defaults_.radius = radius;
        defaults_.speed = maxSpeed;
    }

    std::size_t addAgent(Vector2 position)
    {
        CrowdAgent agent = defaults_;
        agent.x = position.x;
        agent.y = position.y;
        agents_.push_back(agent);
        return agents_.size() - 1;
    }

    // The last agent gets its number. The order of agents decides ties between neighbours.
    void removeAgent(std::size_t agent)
    {
        agents_.at(agent) = agents_.back();
        agents_.pop_back();
    }

    // A closed polygon; of two vertices a wall. Each wall has two sides, so the order of vertices decides nothing.
    void addObstacle(const std::vector<Vector2> &vertices)
    {
        const std::size_t count = vertices.size();
        for (std::size_t k = 0; k < (count == 2 ? 1 : count); k++) {
            const Vector2 a = vertices[k], b = vertices[(k + 1) % count];
            segments_.push_back(CrowdSegment{a.x, a.y, b.x, b.y});
        }
    }

    void clearObstacles() { segments_.clear(); }

    // With any exception nothing changed.
    void doStep()
    {
        // An address also where there is no item.
        CrowdAgent nobody = CrowdAgent();
        const CrowdSegment nowhere = CrowdSegment();
        CrowdFault fault = CrowdFault();
        const std::uint32_t status = crowd_step(agents_.empty() ? &nobody : agents_.data(), agents_.size(),
                                                segments_.empty() ? &nowhere : segments_.data(), segments_.size(),
                                                ring_, &fault);
        if (status == CROWD_NO_MEMORY)
            throw std::bad_alloc();
        if (status == CROWD_REFUSED)
            throw Refused(fault);
    }

    std::size_t getNumAgents() const { return agents_.size(); }
    Vector2 getAgentPosition(std::size_t agent) const { return Vector2{at(agent).x, at(agent).y}; }
    Vector2 getAgentVelocity(std::size_t agent) const { return Vector2{at(agent).vel_x, at(agent).vel_y}; }
    Vector2 getAgentPrefVelocity(std::size_t agent) const { return Vector2{at(agent).pref_x, at(agent).pref_y}; }

    void setAgentPosition(std::size_t agent, Vector2 position)
    {
        agents_.at(agent).x = position.x;
        agents_.at(agent).y = position.y;
    }

    void setAgentPrefVelocity(std::size_t agent, Vector2 velocity)
    {
        agents_.at(agent).pref_x = velocity.x;
        agents_.at(agent).pref_y = velocity.y;
    }

    void setAgentWeight(std::size_t agent, std::uint32_t weight) { agents_.at(agent).weight = weight; }

    // All else of an agent, as its mark and its relief.
    const CrowdAgent &at(std::size_t agent) const { return agents_.at(agent); }

private:
    CrowdAgent defaults_;
    std::uint32_t ring_;
    std::vector<CrowdAgent> agents_;
    std::vector<CrowdSegment> segments_;
};

} // namespace crowd

#endif
