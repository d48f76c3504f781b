SELECT o.objectId, s.sourceId, s.flux-o.flux AS change FROM Object o, Source s WHERE o.objectId = s.objectId
SELECT s.sourceId, s.t FROM Object o, Source s WHERE o.objectId = s.objectId AND area_cap(268435456,0,0,0) AND s.flux > 11
