-- Forty ordinary statements, as people write them for PostgreSQL. test_audit.py counts how many are read.
select * from users;
select id, name from users where id = 42;
SELECT id, name FROM users WHERE email = $1;
SELECT u.id, u.name FROM users u WHERE u.active = true ORDER BY u.name LIMIT 20;
select count(*) from orders;
SELECT count(*) AS n FROM orders WHERE status = 'open';
SELECT o.id, o.total, c.name
FROM orders o
JOIN customers c ON c.id = o.customer_id
WHERE o.created_at >= '2024-01-01'
ORDER BY o.created_at DESC;
SELECT * FROM orders WHERE total BETWEEN 10 AND 100;
SELECT name FROM users WHERE name LIKE 'A%';
SELECT name FROM users WHERE name ILIKE $1 OR email ILIKE $1;
SELECT id FROM users WHERE id IN (1, 2, 3);
SELECT id FROM users WHERE id = ANY($1);
SELECT customer_id, SUM(total) AS revenue FROM orders GROUP BY customer_id ORDER BY revenue DESC LIMIT 10;
SELECT customer_id, count(*) FROM orders GROUP BY customer_id HAVING count(*) > 5;
SELECT DISTINCT country FROM customers;
SELECT DISTINCT ON (customer_id) customer_id, id, created_at FROM orders ORDER BY customer_id, created_at DESC;
SELECT id, CASE WHEN total > 100 THEN 'big' ELSE 'small' END AS size FROM orders;
SELECT coalesce(nickname, name) FROM users;
SELECT lower(email) FROM users;
SELECT id FROM users WHERE created_at > now() - interval '7 days';
SELECT u.name, p.title FROM users u LEFT JOIN posts p ON p.user_id = u.id WHERE p.id IS NULL;
SELECT name FROM users WHERE EXISTS (SELECT 1 FROM posts WHERE posts.user_id = users.id);
SELECT name FROM users WHERE id NOT IN (SELECT user_id FROM posts);
SELECT id FROM a UNION SELECT id FROM b;
SELECT id FROM a UNION ALL SELECT id FROM b ORDER BY id;
WITH recent AS (SELECT * FROM orders WHERE created_at > $1) SELECT customer_id, count(*) FROM recent GROUP BY customer_id;
SELECT id, row_number() OVER (PARTITION BY customer_id ORDER BY created_at DESC) FROM orders;
SELECT avg(total), min(total), max(total) FROM orders;
SELECT id FROM orders WHERE (status = 'open' OR status = 'paid') AND NOT archived;
SELECT id FROM orders WHERE deleted_at IS NULL;
SELECT id -- the key
FROM orders /* all of them */;
SELECT * FROM orders WHERE id = $1 FOR UPDATE SKIP LOCKED;
SELECT price * quantity AS amount FROM order_items;
SELECT first_name || ' ' || last_name AS full_name FROM users;
SELECT id::text FROM users;
SELECT data->>'email' FROM events WHERE kind = 'signup';
SELECT date_trunc('day', created_at) AS day, count(*) FROM orders GROUP BY 1 ORDER BY 1;
SELECT t.id FROM (SELECT id FROM users WHERE active) t WHERE t.id > 10;
SELECT id, name FROM public.users ORDER BY name NULLS LAST OFFSET 20 LIMIT 10;
SELECT (SELECT count(*) FROM posts p WHERE p.user_id = u.id) AS posts, u.name FROM users AS u;
