"""A simulator in plain Python, as bots have them: lists, tuples and sets. For its speed alone: it
is compared with nothing. No wrapped board, no constrictor."""

STEPS = {0: (0, 1), 1: (0, -1), 2: (-1, 0), 3: (1, 0)}


class Snake:
    __slots__ = ("body", "health", "cause")

    def __init__(self, cell):
        self.body, self.health, self.cause = [cell] * 3, 100, None

    def move(self, move, food):
        """One step; returns the head if it is on food."""
        body = self.body
        if move in STEPS:
            dx, dy = STEPS[move]
        else:
            dx, dy = body[0][0] - body[1][0], body[0][1] - body[1][1]
        head = (body[0][0] + dx, body[0][1] + dy)
        body.pop()
        body.insert(0, head)
        self.health -= 1
        if head not in food:
            return None
        self.health = 100
        body.append(body[-1])
        return head


class Game:
    def __init__(self, width, height, starts, food, min_food, chance):
        self.width, self.height = width, height
        self.min_food, self.chance = min_food, chance
        self.food, self.snakes, self.turn = list(food), [Snake(cell) for cell in starts], 0

    def living(self):
        return [snake for snake in self.snakes if snake.cause is None]

    def first_out(self):
        for snake in self.living():
            x, y = snake.body[0]
            if snake.health == 0:
                snake.cause = "out-of-health"
            elif not (0 <= x < self.width and 0 <= y < self.height):
                snake.cause = "wall-collision"

    def collide(self):
        living, out = self.living(), []
        for snake in living:
            head, others = snake.body[0], [it for it in living if it is not snake]
            if head in snake.body[1:]:
                out.append((snake, "snake-self-collision"))
            elif any(head in it.body[1:] for it in others):
                out.append((snake, "snake-collision"))
            elif any(it.body[0] == head and len(it.body) >= len(snake.body) for it in others):
                out.append((snake, "head-collision"))
        for snake, cause in out:
            snake.cause = cause

    def spawn(self, words):
        missing = self.min_food - len(self.food)
        if missing > 0:
            words = words[:missing]
        elif words[0] % 100 < self.chance:
            words = words[1:2]
        else:
            return
        for word in words:
            taken = set(self.food).union(*(snake.body for snake in self.living()))
            cells = [(x, y) for y in range(self.height) for x in range(self.width)]
            free = [cell for cell in cells if cell not in taken]
            if free:
                self.food.append(free[word % len(free)])

    def step(self, moves, words):
        food, eaten = set(self.food), set()
        for snake, move in zip(self.snakes, moves):
            if snake.cause is None:
                eaten.add(snake.move(move, food))
        self.food = [cell for cell in self.food if cell not in eaten]
        self.first_out()
        self.collide()
        self.spawn(words)
        self.turn += 1
